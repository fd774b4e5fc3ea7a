/* mpheap_record.h: with this a collector of your own writes down what its mutators ask and what it answers, in the lines that
 * `mpheap replay` judges (docs/REPLAY.md). C99 or later, C++11 or later, on a system with write(); nothing of mpheap is linked.
 *
 *     static char memory[1 << 16];
 *     static mpheap_recorder run;
 *     mpheap_record_open(&run, file, memory, sizeof memory);     (file: a descriptor that was opened for writing)
 *     mpheap_record_dump_at(&run, SIGABRT);                      (a collector that aborts leaves all its lines)
 *     mpheap_record_attach(&run, 0, 0);
 *     mpheap_record_alloc(&run, 0, 1, 3, false, 0, address, 4);  (3 words were asked for, and the object has 4)
 *     mpheap_record_load(&run, 0, 2, 1, 0, 0, word);
 *     mpheap_record_gone(&run, address);                         (once for each object that the sweep takes)
 *     mpheap_record_collect(&run);                               (and then the line of the collection)
 *     mpheap_record_close(&run);
 *
 * LINES. Each command of docs/SCRIPTS.md has a function of its name, called when the collector has answered: first whose call
 * it was (`slot`, but for attach and the collector's own), then the numbers of its line in their order, then the answer. Of a
 * call that can be refused this is a `status`, 0 or the number of the refusal (enum mpheap_refusal), and behind it the result,
 * which counts only where the status is 0. Registers (0 to 15 of each mutator), its stack and 64 globals are the roots of the
 * run: what stands in them has to stand in a root of the collector too, or it may take what the run says has to stay. A
 * collector whose mutators work with pointers and not with registers tells its roots by mpheap_record_set, and words of objects
 * by mpheap_record_write and mpheap_record_read, which use registers 14 and 15.
 *
 * THREADS. The functions take no lock. Call them while you hold the lock under which the call was made that they write down:
 * the lines are judged in their order, so this has to be the order in which the calls took effect.
 *
 * mpheap_record_run.h, which lies beside this file, begins and ends runs, and says how much memory they need, and what a ring is
 * (mpheap_record_open_ring), for runs that are too long for a file. */
#ifndef MPHEAP_RECORD_H
#define MPHEAP_RECORD_H
#include "mpheap_record_run.h"
#ifdef __cplusplus
extern "C" {
#endif

/* Statuses of refusals, as docs/SCRIPTS.md has them. */
enum mpheap_refusal {
    MPHEAP_REFUSED_NO_SLOT = 1,
    MPHEAP_REFUSED_MISALIGNED = 2,
    MPHEAP_REFUSED_NO_OBJECT = 3,
    MPHEAP_REFUSED_NOT_BASE = 4,
    MPHEAP_REFUSED_BAD_SIZE = 5,
    MPHEAP_REFUSED_FULL = 6,
    MPHEAP_REFUSED_STACK_FULL = 7,
    MPHEAP_REFUSED_STACK_EMPTY = 8,
    MPHEAP_REFUSED_WRONG_PHASE = 9,
    MPHEAP_REFUSED_LINKS_FULL = 10,
    MPHEAP_REFUSED_NOT_POINTER_FREE = 11,
    MPHEAP_REFUSED_NEEDS_FULL = 12
};

/* ---- Answers. ---- */

static inline const char *mpheap_record_refusal(uint32_t status) {
    static const char *const names[] = {"NoSlot", "Misaligned", "NoObject", "NotBase", "BadSize", "Full",
        "StackFull", "StackEmpty", "WrongPhase", "LinksFull", "NotPointerFree", "NeedsFull"};
    return status >= 1 && status <= 12 ? names[status - 1] : "Unknown";
}

/* Begins a line of a mutator. */
static inline void mpheap_record_call(mpheap_record_line *line, unsigned slot, const char *name) {
    line->length = 0;
    if (slot > 9) mpheap_record_word(line, "1");
    line->text[line->length++] = (char)('0' + (char)(slot % 10));
    mpheap_record_word(line, name);
}

/* Puts the reply, and whether it isn't a refusal. */
static inline bool mpheap_record_reply(mpheap_record_line *line, uint32_t status) {
    mpheap_record_word(line, status == 0 ? " =>" : " => refused");
    if (status == 0) return true;
    mpheap_record_number(line, status);
    mpheap_record_word(line, " ");
    mpheap_record_word(line, mpheap_record_refusal(status));
    return false;
}

/* Ends a line with `ok` or a refusal. */
static inline void mpheap_record_answer(mpheap_recorder *run, mpheap_record_line *line, uint32_t status) {
    if (mpheap_record_reply(line, status)) mpheap_record_word(line, " ok");
    mpheap_record_end_line(run, line);
}

/* Ends a line with a number or a refusal. */
static inline void mpheap_record_answer_number(mpheap_recorder *run, mpheap_record_line *line, uint32_t status, uint64_t number) {
    if (mpheap_record_reply(line, status)) mpheap_record_number(line, number);
    mpheap_record_end_line(run, line);
}

/* A line of a mutator's two, three numbers. */
static inline void mpheap_record_numbers(mpheap_record_line *line, unsigned slot, const char *name, uint64_t one, uint64_t two) {
    mpheap_record_call(line, slot, name);
    mpheap_record_number(line, one);
    mpheap_record_number(line, two);
}

/* ---- Calls of mutators. ---- */

/* A mutator came, and got this slot. */
static inline void mpheap_record_attach(mpheap_recorder *run, uint32_t status, unsigned slot) {
    mpheap_record_line line = {"attach", 6};
    if (mpheap_record_reply(&line, status)) {
        mpheap_record_word(&line, " mutator");
        mpheap_record_number(&line, slot);
    }
    mpheap_record_end_line(run, &line);
}

static inline void mpheap_record_detach(mpheap_recorder *run, unsigned slot) {
    mpheap_record_line line;
    mpheap_record_call(&line, slot, " detach");
    mpheap_record_answer(run, &line, 0);
}

/* The register became this word. */
static inline void mpheap_record_set(mpheap_recorder *run, unsigned slot, unsigned reg, uint64_t word) {
    mpheap_record_line line;
    mpheap_record_numbers(&line, slot, " set", reg, word);
    mpheap_record_answer(run, &line, 0);
}

static inline void mpheap_record_copy(mpheap_recorder *run, unsigned slot, unsigned to, unsigned from) {
    mpheap_record_line line;
    mpheap_record_numbers(&line, slot, " copy", to, from);
    mpheap_record_answer(run, &line, 0);
}

static inline void mpheap_record_add(mpheap_recorder *run, unsigned slot, unsigned to, unsigned from, uint64_t number) {
    mpheap_record_line line;
    mpheap_record_numbers(&line, slot, " add", to, from);
    mpheap_record_number(&line, number);
    mpheap_record_answer(run, &line, 0);
}

/* Register `to` became register `from` minus register `minus`. */
static inline void mpheap_record_sub(mpheap_recorder *run, unsigned slot, unsigned to, unsigned from, unsigned minus) {
    mpheap_record_line line;
    mpheap_record_numbers(&line, slot, " sub", to, from);
    mpheap_record_number(&line, minus);
    mpheap_record_answer(run, &line, 0);
}

/* The register's word is this. */
static inline void mpheap_record_get(mpheap_recorder *run, unsigned slot, unsigned reg, uint64_t word) {
    mpheap_record_line line;
    mpheap_record_call(&line, slot, " get");
    mpheap_record_number(&line, reg);
    mpheap_record_answer_number(run, &line, 0, word);
}

static inline void mpheap_record_push(mpheap_recorder *run, unsigned slot, unsigned from, uint32_t status) {
    mpheap_record_line line;
    mpheap_record_call(&line, slot, " push");
    mpheap_record_number(&line, from);
    mpheap_record_answer(run, &line, status);
}

static inline void mpheap_record_pop(mpheap_recorder *run, unsigned slot, unsigned to, uint32_t status, uint64_t word) {
    mpheap_record_line line;
    mpheap_record_call(&line, slot, " pop");
    mpheap_record_number(&line, to);
    mpheap_record_answer_number(run, &line, status, word);
}

/* What an object's place adds to the range. */
static inline void mpheap_record_widen(mpheap_recorder *run, uint64_t address, uint64_t words) {
    if (run->behind == 0 || address < run->first) run->first = address;
    if (address + 8 * words > run->behind) run->behind = address + 8 * words;
}

/* A request for so many words was granted at this address by an object of `words` words, which are at least as many and are 0. `words`
 * is 0 where objects lie in the size classes of docs/REPLAY.md: then the line says no number. */
static inline void mpheap_record_alloc(mpheap_recorder *run, unsigned slot, unsigned to, uint64_t asked, bool is_pointer_free,
                                       uint32_t status, uint64_t address, uint64_t words) {
    mpheap_record_line line;
    mpheap_record_numbers(&line, slot, " alloc", to, asked);
    mpheap_record_word(&line, is_pointer_free ? " atomic" : " normal");
    if (mpheap_record_reply(&line, status)) {
        mpheap_record_word(&line, " ok @");
        mpheap_record_number(&line, address);
        if (words > 0) mpheap_record_number(&line, words);
        if (words > 0) mpheap_record_widen(run, address, words);
    }
    mpheap_record_end_line(run, &line);
}

/* Register `to` became the word at register `at` plus `offset` words. */
static inline void mpheap_record_load(mpheap_recorder *run, unsigned slot, unsigned to, unsigned at, uint64_t offset, uint32_t status,
                                      uint64_t word) {
    mpheap_record_line line;
    mpheap_record_numbers(&line, slot, " load", to, at);
    mpheap_record_number(&line, offset);
    mpheap_record_answer_number(run, &line, status, word);
}

/* The word at register `at` plus `offset` words became register `from`. */
static inline void mpheap_record_store(mpheap_recorder *run, unsigned slot, unsigned at, uint64_t offset, unsigned from, uint32_t status) {
    mpheap_record_line line;
    mpheap_record_numbers(&line, slot, " store", at, offset);
    mpheap_record_number(&line, from);
    mpheap_record_answer(run, &line, status);
}

static inline void mpheap_record_free(mpheap_recorder *run, unsigned slot, unsigned at, uint32_t status) {
    mpheap_record_line line;
    mpheap_record_call(&line, slot, " free");
    mpheap_record_number(&line, at);
    mpheap_record_answer(run, &line, status);
}

/* Register `to` became the base of the object that register `at` points into. */
static inline void mpheap_record_base(mpheap_recorder *run, unsigned slot, unsigned to, unsigned at, uint32_t status, uint64_t address) {
    mpheap_record_line line;
    mpheap_record_numbers(&line, slot, " base", to, at);
    mpheap_record_answer_number(run, &line, status, address);
}

static inline void mpheap_record_size(mpheap_recorder *run, unsigned slot, unsigned at, uint32_t status, uint64_t words) {
    mpheap_record_line line;
    mpheap_record_call(&line, slot, " size");
    mpheap_record_number(&line, at);
    mpheap_record_answer_number(run, &line, status, words);
}

/* The word at register `at` plus `offset` words became a link to the object that register `to` points into. */
static inline void mpheap_record_link(mpheap_recorder *run, unsigned slot, unsigned at, uint64_t offset, unsigned to, uint32_t status) {
    mpheap_record_line line;
    mpheap_record_numbers(&line, slot, " link", at, offset);
    mpheap_record_number(&line, to);
    mpheap_record_answer(run, &line, status);
}

/* How many links stood there: 0 or 1. */
static inline void mpheap_record_unlink(mpheap_recorder *run, unsigned slot, unsigned at, uint64_t offset, unsigned stood) {
    mpheap_record_line line;
    mpheap_record_numbers(&line, slot, " unlink", at, offset);
    mpheap_record_answer_number(run, &line, 0, stood);
}

/* Register `to` became the global, which has this word. */
static inline void mpheap_record_gget(mpheap_recorder *run, unsigned slot, unsigned to, unsigned global, uint64_t word) {
    mpheap_record_line line;
    mpheap_record_numbers(&line, slot, " gget", to, global);
    mpheap_record_answer_number(run, &line, 0, word);
}

static inline void mpheap_record_gput(mpheap_recorder *run, unsigned slot, unsigned global, unsigned from) {
    mpheap_record_line line;
    mpheap_record_numbers(&line, slot, " gput", global, from);
    mpheap_record_answer(run, &line, 0);
}

/* The word at an address of an object became this: in lines of registers 14 and 15, which are 0 then. */
static inline void mpheap_record_write(mpheap_recorder *run, unsigned slot, uint64_t address, uint64_t word) {
    mpheap_record_set(run, slot, 14, address);
    mpheap_record_set(run, slot, 15, word);
    mpheap_record_store(run, slot, 14, 0, 15, 0);
    mpheap_record_set(run, slot, 14, 0);
    mpheap_record_set(run, slot, 15, 0);
}

/* The word at an address of an object is this: in lines of registers 14 and 15, which are 0 then. */
static inline void mpheap_record_read(mpheap_recorder *run, unsigned slot, uint64_t address, uint64_t word) {
    mpheap_record_set(run, slot, 14, address);
    mpheap_record_load(run, slot, 15, 14, 0, 0, word);
    mpheap_record_set(run, slot, 14, 0);
    mpheap_record_set(run, slot, 15, 0);
}

/* ---- The collector. ---- */

static inline void mpheap_record_begin(mpheap_recorder *run, uint32_t status) {
    mpheap_record_line line = {"gc begin", 8};
    mpheap_record_answer(run, &line, status);
}

static inline void mpheap_record_partial(mpheap_recorder *run, uint32_t status) {
    mpheap_record_line line = {"gc partial", 10};
    mpheap_record_answer(run, &line, status);
}

static inline void mpheap_record_roots(mpheap_recorder *run, uint32_t status) {
    mpheap_record_line line = {"gc roots", 8};
    mpheap_record_answer(run, &line, status);
}

/* Of at most so many words so many were read. */
static inline void mpheap_record_mark(mpheap_recorder *run, uint64_t most, uint32_t status, uint64_t read) {
    mpheap_record_line line = {"gc mark", 7};
    mpheap_record_number(&line, most);
    mpheap_record_answer_number(run, &line, status, read);
}

/* A page was read again, or there was none: 1 or 0. */
static inline void mpheap_record_retrace(mpheap_recorder *run, uint32_t status, unsigned pages) {
    mpheap_record_line line = {"gc retrace", 10};
    mpheap_record_answer_number(run, &line, status, pages);
}

/* A page was swept, or there was none: 1 or 0. */
static inline void mpheap_record_sweep(mpheap_recorder *run, unsigned pages) {
    mpheap_record_line line = {"gc sweep", 8};
    mpheap_record_answer_number(run, &line, 0, pages);
}

/* How many collections ended since the run began. */
static inline void mpheap_record_no(mpheap_recorder *run, uint64_t number) {
    mpheap_record_line line = {"gc no", 5};
    mpheap_record_answer_number(run, &line, 0, number);
}

/* The collection whose line comes next forgot the object that begins at this address. */
static inline void mpheap_record_gone(mpheap_recorder *run, uint64_t address) {
    if (run->fault == 0 && run->gone_count == run->most_gone) run->fault = MPHEAP_RECORD_TOO_MANY_GONE;
    if (run->fault == 0) memcpy(run->gone + 8 * run->gone_count++, &address, 8);
}

/* Ends the line of a collection with what it forgot. */
static inline void mpheap_record_forgotten(mpheap_recorder *run, mpheap_record_line *line) {
    uint64_t base;
    size_t at;
    mpheap_record_number(line, run->gone_count);
    mpheap_record_word(line, " -");
    for (at = 0; at < run->gone_count; at++) {
        memcpy(&base, run->gone + 8 * at, 8);
        mpheap_record_number(line, base);
        mpheap_record_put_line(run, line);
    }
    run->gone_count = 0;
    mpheap_record_end_line(run, line);
}

/* A cycle that was begun ended, and forgot what mpheap_record_gone was told. */
static inline void mpheap_record_finish(mpheap_recorder *run, uint32_t status) {
    mpheap_record_line line = {"gc finish", 9};
    if (mpheap_record_reply(&line, status)) mpheap_record_forgotten(run, &line);
    else mpheap_record_end_line(run, &line);
}

/* A whole collection in one step did, while no mutator ran. */
static inline void mpheap_record_collect(mpheap_recorder *run) {
    mpheap_record_line line = {"gc collect", 10};
    mpheap_record_reply(&line, 0);
    mpheap_record_forgotten(run, &line);
}
#ifdef __cplusplus
}
#endif
#endif
