/* mpheap_record_run.h: the part of mpheap_record.h that begins and ends runs: how lines are kept in memory, written to a file or
 * kept as a ring, and what is left where a run ends or the process dies. A collector includes mpheap_record.h.
 *
 * MEMORY. No function asks for any. The half of what the open is given holds text, and the other half the bases that
 * mpheap_record_gone was told, 8 bytes for each, until the line of the collection is written. So give 16 bytes for each object
 * that one collection may take, and 1,024 at least. Where they are too few, or a write fails, `fault` says so (it is no 0
 * then), the run ends with the line before, and every later call does nothing.
 *
 * A RING (mpheap_record_open_ring) is for runs that are too long for a file: it keeps the last lines that fit into its memory
 * and writes nothing until it is closed or dumped. A run whose first lines are lost can't be judged, since nobody knows any
 * more what its heap and roots held. So once lines were lost it is written as comments, each with the number that its line
 * would have in a file: this says what was asked just before the end, and where to look in a file that the same program writes
 * when it is run again; replay answers `no lines` to it. A ring that lost none writes the lines of a run as they are. And where
 * the collector can tell its heap anew, mpheap_record_restart forgets all lines before: then attach the mutators, and tell each
 * object that was kept by an alloc and its words by mpheap_record_write, and last the registers. Done once in a while, behind a
 * collection, this keeps a run of bounded length that can be judged; its numbers of collections begin with 0, and its first
 * cycle may not be partial. */
#ifndef MPHEAP_RECORD_RUN_H
#define MPHEAP_RECORD_RUN_H
#include <errno.h>
#include <signal.h>
#include <stdbool.h>
#include <stddef.h>
#include <stdint.h>
#include <string.h>
#include <unistd.h>
#ifdef __cplusplus
extern "C" {
#endif

/* What `fault` is where more objects went in one collection than the memory has room for; other faults are numbers of errno. */
enum { MPHEAP_RECORD_TOO_MANY_GONE = -1 };

/* A recorder. Its owner may read `lines` and `fault`, and begins it by an open. */
typedef struct mpheap_recorder {
    int file;          /* where the lines go */
    int fault;         /* why nothing is written any more, or 0 */
    bool is_ring;      /* it keeps the last lines, and writes at its end */
    bool has_lost;     /* and has lost earlier ones */
    char *text;        /* lines that aren't written yet */
    size_t room, used; /* how many bytes it has, and where the next one goes */
    char *gone;        /* bases, of 8 bytes each */
    size_t most_gone, gone_count;
    uint64_t lines;        /* how many lines were told, with comments */
    uint64_t first, behind; /* the range of all objects whose words were told: none while `behind` is 0 */
} mpheap_recorder;

/* A line that is being made: long enough for each but that of a collection. */
typedef struct mpheap_record_line {
    char text[192];
    size_t length;
} mpheap_record_line;

/* ---- Writing. ---- */

/* Writes bytes to the file, all of them or with a fault. A signal's handler may call it. */
static inline void mpheap_record_send(mpheap_recorder *run, const char *bytes, size_t count) {
    while (count > 0 && run->fault == 0) {
        ssize_t sent = write(run->file, bytes, count);
        if (sent > 0) {
            bytes += sent;
            count -= (size_t)sent;
        } else if (sent == 0 || errno != EINTR) {
            run->fault = sent == 0 ? EIO : errno;
        }
    }
}

/* Makes room in a text that is full: it is written, or its oldest bytes are overwritten. */
static inline void mpheap_record_turn(mpheap_recorder *run) {
    if (run->is_ring) run->has_lost = true;
    else mpheap_record_send(run, run->text, run->used);
    run->used = 0;
}

/* Puts bytes behind the text. */
static inline void mpheap_record_put(mpheap_recorder *run, const char *bytes, size_t count) {
    while (count > 0 && run->fault == 0) {
        size_t part;
        if (run->used == run->room) mpheap_record_turn(run);
        part = run->room - run->used < count ? run->room - run->used : count;
        memcpy(run->text + run->used, bytes, part);
        run->used += part;
        bytes += part;
        count -= part;
    }
}

static inline void mpheap_record_word(mpheap_record_line *line, const char *word) {
    size_t length = strlen(word), left = sizeof line->text - line->length;
    if (length > left) length = left;
    memcpy(line->text + line->length, word, length);
    line->length += length;
}

/* A number behind a space. */
static inline void mpheap_record_number(mpheap_record_line *line, uint64_t number) {
    char digits[24];
    size_t at = sizeof digits - 1;
    digits[at] = 0;
    do {
        digits[--at] = (char)('0' + (char)(number % 10));
        number /= 10;
    } while (number > 0);
    digits[--at] = ' ';
    mpheap_record_word(line, digits + at);
}

/* Puts what was made of a line. */
static inline void mpheap_record_put_line(mpheap_recorder *run, mpheap_record_line *line) {
    mpheap_record_put(run, line->text, line->length);
    line->length = 0;
}

static inline void mpheap_record_end_line(mpheap_recorder *run, mpheap_record_line *line) {
    mpheap_record_word(line, "\n");
    mpheap_record_put_line(run, line);
    if (run->fault == 0) run->lines++;
}

/* ---- Opening, and what isn't a command. ---- */

/* Begins a run, whose lines go to a file whenever the memory is full, and at the close. */
static inline void mpheap_record_open(mpheap_recorder *run, int file, void *memory, size_t bytes) {
    memset(run, 0, sizeof *run);
    run->file = file;
    run->fault = bytes < 1024 ? EINVAL : 0;
    run->text = (char *)memory;
    run->room = bytes / 2;
    run->gone = (char *)memory + bytes / 2;
    run->most_gone = bytes / 2 / sizeof(uint64_t);
}

/* Begins a run of which only the last lines are kept, and written at the close. */
static inline void mpheap_record_open_ring(mpheap_recorder *run, int file, void *memory, size_t bytes) {
    mpheap_record_open(run, file, memory, bytes);
    run->is_ring = true;
}

/* Forgets all lines of a ring: the next one is the first of a new run. */
static inline void mpheap_record_restart(mpheap_recorder *run) {
    if (!run->is_ring) return;
    run->used = 0;
    run->has_lost = false;
    run->lines = 0;
    run->behind = 0;
    run->gone_count = 0;
}

/* A line that says nothing to the checker. The text has no newline; of a longer one the first 180 bytes are kept. */
static inline void mpheap_record_comment(mpheap_recorder *run, const char *text) {
    mpheap_record_line line = {"# ", 2};
    size_t length = strlen(text);
    if (length > 180) length = 180;
    memcpy(line.text + line.length, text, length);
    line.length += length;
    mpheap_record_end_line(run, &line);
}

/* ---- Closing. ---- */

/* Writes the range in which the objects lay, as words for replay: whole pages of 4,096 bytes. */
static inline void mpheap_record_send_range(mpheap_recorder *run) {
    mpheap_record_line line = {"# in --from", 11};
    uint64_t from = run->first / 4096 * 4096;
    if (run->behind == 0) return;
    mpheap_record_number(&line, from);
    mpheap_record_word(&line, " --bytes");
    mpheap_record_number(&line, (run->behind - from + 4095) / 4096 * 4096);
    mpheap_record_word(&line, "\n");
    mpheap_record_send(run, line.text, line.length);
}

/* How many bytes of a text there are up to its last newline: a line that wasn't ended is no line. */
static inline size_t mpheap_record_whole(const char *text, size_t count) {
    while (count > 0 && text[count - 1] != '\n') count--;
    return count;
}

static inline void mpheap_record_reverse(char *text, size_t count) {
    size_t at;
    for (at = 0; at < count / 2; at++) {
        char byte = text[at];
        text[at] = text[count - 1 - at];
        text[count - 1 - at] = byte;
    }
}

/* Turns a ring that is full so that its oldest byte comes first, and gives the first line that is whole. */
static inline const char *mpheap_record_oldest(mpheap_recorder *run) {
    const char *newline;
    mpheap_record_reverse(run->text, run->used);
    mpheap_record_reverse(run->text + run->used, run->room - run->used);
    mpheap_record_reverse(run->text, run->room);
    newline = (const char *)memchr(run->text, '\n', run->room);
    return newline == NULL ? run->text + run->room : newline + 1;
}

/* Writes the last lines of a ring that has lost others, as comments, each with its number. */
static inline void mpheap_record_send_last(mpheap_recorder *run) {
    const char *text = mpheap_record_oldest(run), *at, *newline;
    size_t count = mpheap_record_whole(text, (size_t)(run->text + run->room - text));
    uint64_t number = run->lines + 1;
    for (at = text; at < text + count; at++) number -= *at == '\n';
    for (at = text; at < text + count; at = newline + 1) {
        mpheap_record_line head = {"#", 1};
        newline = (const char *)memchr(at, '\n', (size_t)(text + count - at));
        mpheap_record_number(&head, number++);
        mpheap_record_word(&head, ": ");
        mpheap_record_send(run, head.text, head.length);
        mpheap_record_send(run, at, (size_t)(newline + 1 - at));
    }
}

/* Writes what isn't written yet to the file, so that all lines up to here stand there. A ring keeps its lines. */
static inline int mpheap_record_flush(mpheap_recorder *run) {
    if (run->is_ring) return run->fault;
    mpheap_record_send(run, run->text, run->used);
    run->used = 0;
    return run->fault;
}

/* Ends the run: its last line says in which range the objects lay, and all that isn't written yet is. The answer is 0, or the
 * fault that the run ended with. Every later call does nothing. A signal's handler may call it. */
static inline int mpheap_record_close(mpheap_recorder *run) {
    int fault = run->fault;
    if (fault == MPHEAP_RECORD_TOO_MANY_GONE) run->fault = 0;
    if (run->has_lost) {
        mpheap_record_send_last(run);
    } else {
        mpheap_record_send(run, run->text, mpheap_record_whole(run->text, run->used));
        mpheap_record_send_range(run);
    }
    fault = fault == 0 ? run->fault : fault;
    run->fault = EBADF;
    return fault;
}

/* The recorder that is closed at a signal. Each file that includes this header has its own. */
static inline mpheap_recorder **mpheap_record_dumped(void) {
    static mpheap_recorder *dumped;
    return &dumped;
}

static inline void mpheap_record_on_signal(int number) {
    signal(number, SIG_DFL);
    mpheap_record_close(*mpheap_record_dumped());
    raise(number);
}

/* Has the run closed when this signal comes (SIGABRT, or SIGSEGV where the collector doesn't use it itself), which then ends the
 * process as ever. The recorder has to be there till then, and its memory. */
static inline void mpheap_record_dump_at(mpheap_recorder *run, int number) {
    *mpheap_record_dumped() = run;
    signal(number, mpheap_record_on_signal);
}
#ifdef __cplusplus
}
#endif
#endif
