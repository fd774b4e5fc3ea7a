/* mpheap.h: a proved, collected heap for programs in C and C++ (C99 or later, C++11 or later).
 *
 * A heap has 1 to 4,096 pages of 512 words of 8 bytes, or up to 1,048,576 by an open with limits of its own. Its addresses
 * begin at MPHEAP_FIRST_ADDRESS, whatever the process maps there; a heap that mpheap_open_mapped opened has its words at
 * these very addresses, so that an address of it is a pointer. Objects do not move. What keeps an object is a root word that
 * points into it (a register or the stack of a mutator, or a global), or a word of a kept object that was not allocated
 * pointer-free: reading is conservative, so any word that is the address of one of the object's bytes points into it. A
 * variable of C is no root.
 *
 * STATUSES. Each function that answers a uint32_t and is not a figure answers a status (enum mpheap_status). 0 is done. 1 to 99
 * is a refusal of the heap: nothing of it has changed, but that a FULL has swept the pages that were still to be swept. 100 and
 * up is refused before the heap is asked: BAD_NUMBER says that a number names no slot, register or global (what else it says of
 * the calls that share marking stands there). Results go through the last parameters, which are written only where the status is 0
 * (the two calls that allocate many say how many came before a refusal). Where a call could be refused for several reasons the
 * first of these is told: BAD_NUMBER, NO_SLOT, then in the order in which the call's own comment names them.
 *
 * MEMORY. Only the opens ask for memory, and the calls that share marking (below), and only these and the closes touch errno. No
 * call prints, ends the process or calls back.
 *
 * WHAT THE CALLER OWES, and what nothing here checks:
 *  - `heap` points to an mpheap that was opened and has not been closed since. A closed one is null inside, so a call on it
 *    reads address 0 and is stopped there by the system; a null `heap` likewise.
 *  - An open mpheap is not opened again (the first heap would be lost) and not copied. It begins as MPHEAP_CLOSED.
 *  - Calls on one heap are made by one thread at a time, and never from a signal handler that interrupted one of them. (Two
 *    heaps may be used by two threads at once, but only opened and closed one after another.)
 *  - Each out parameter points to a number of its own, outside of every heap.
 *  - malloc, realloc and free are those of one allocator from the open to the close.
 *  - Words of a mapped heap are read and written by pointers only as "WORDS BY POINTERS" below allows. */
#ifndef MPHEAP_H
#define MPHEAP_H
#include <stdbool.h>
#include <stddef.h>
#include <stdint.h>
#include <string.h>
#ifdef __cplusplus
extern "C" {
#endif

/* A heap, as its owner keeps it. */
typedef struct mpheap {
    void *core;
} mpheap;
#define MPHEAP_CLOSED { 0 }

enum mpheap_status {
    MPHEAP_OK = 0,
    MPHEAP_NO_SLOT = 1,           /* the slot has no mutator; of attach: all slots have one */
    MPHEAP_MISALIGNED = 2,        /* the address is not divisible by 8 */
    MPHEAP_NO_OBJECT = 3,         /* the address points into no object */
    MPHEAP_NOT_BASE = 4,          /* the address points into an object, and is not where it begins */
    MPHEAP_BAD_SIZE = 5,          /* 0 words, or more than the heap's limit of requests */
    MPHEAP_FULL = 6,              /* no place of the heap has room */
    MPHEAP_STACK_FULL = 7,        /* the mutator's stack has MPHEAP_STACK_WORDS words */
    MPHEAP_STACK_EMPTY = 8,       /* the mutator's stack has none */
    MPHEAP_WRONG_PHASE = 9,       /* the call does not fit the phase of the collector */
    MPHEAP_LINKS_FULL = 10,       /* MPHEAP_MAX_LINKS links stand, and none at the address */
    MPHEAP_NOT_POINTER_FREE = 11, /* the address points into an object that is not pointer-free */
    MPHEAP_NEEDS_FULL = 12,       /* a partial cycle has no marks to begin with: a full one comes first */
    MPHEAP_BAD_NUMBER = 100,      /* a slot, register, global or number of helpers is out of range; or shares stand where none may, or
                                     not where they have to */
    MPHEAP_BAD_PAGES = 101,       /* 0 pages, or more than the open allows */
    MPHEAP_NO_MEMORY = 102,       /* memory was refused; nothing is left of the attempt */
    MPHEAP_SECOND = 103,          /* this process has a mapped heap already */
    MPHEAP_RANGE_TAKEN = 104      /* something else is mapped where the heap's words have to stand */
};

enum {
    MPHEAP_MAX_PAGES = 4096,     /* of an open without limits of its own */
    MPHEAP_MOST_PAGES = 1048576, /* of an open with them: 4 GiB */
    MPHEAP_PAGE_WORDS = 512,
    MPHEAP_PAGE_BYTES = 4096,
    MPHEAP_WORD_BYTES = 8,
    MPHEAP_MAX_SMALL_WORDS = 256,          /* a larger request takes whole pages, in a row */
    MPHEAP_MAX_REQUEST_WORDS = 65536,      /* of an open without limits of its own */
    MPHEAP_MOST_REQUEST_WORDS = 536870912, /* of an open with them: all words of the largest heap */
    MPHEAP_SLOTS = 16,
    MPHEAP_REGISTERS = 16,
    MPHEAP_STACK_WORDS = 256,
    MPHEAP_GLOBALS = 64,
    MPHEAP_MAX_LINKS = 64
};

/* Where each heap's addresses begin: far from the numbers that programs count with, and where the system puts nothing of its own. */
#define MPHEAP_FIRST_ADDRESS UINT64_C(0x550000000000)

/* ---- A heap ---- */

/* Opens a heap of so many pages, at most MPHEAP_MAX_PAGES: about 4.2 KB of memory for each, and 150 KB. A request has at most
 * MPHEAP_MAX_REQUEST_WORDS words. BAD_PAGES, NO_MEMORY: *heap stays closed. */
uint32_t mpheap_open(uint32_t pages, mpheap *heap);

/* The same with limits of its own: at most MPHEAP_MOST_PAGES pages, and requests of at most so many words, which are at most
 * MPHEAP_MOST_REQUEST_WORDS. All memory is asked for here, and none later. Beside its words a page takes about 100 bytes, of
 * which those of a page that was never used are not touched. BAD_PAGES: of either limit; NO_MEMORY: *heap stays closed. */
uint32_t mpheap_open_with(uint32_t pages, uint64_t request_words, mpheap *heap);

/* The same, with the heap's words at their own addresses, MPHEAP_FIRST_ADDRESS and on. A process has at most one such heap at
 * a time. BAD_PAGES, SECOND, RANGE_TAKEN, NO_MEMORY: *heap stays closed, and nothing is mapped. */
uint32_t mpheap_open_mapped(uint32_t pages, mpheap *heap);

/* The same with limits of its own. The range is set aside, and a page of it takes memory once it is used. */
uint32_t mpheap_open_mapped_with(uint32_t pages, uint64_t request_words, mpheap *heap);

/* Frees all of it; *heap is then closed. */
void mpheap_close(mpheap *heap);

/* ---- Mutators: slots 0 to 15, each with 16 registers and a stack of words ---- */

/* A mutator comes, into the lowest slot that has none, with registers of 0 and an empty stack. NO_SLOT: all have one. */
uint32_t mpheap_attach(mpheap *heap, uint8_t *slot);

/* The mutator goes, and its registers and stack are roots no more. */
uint32_t mpheap_detach(mpheap *heap, uint8_t slot);

/* Register `into` becomes the number. */
uint32_t mpheap_set(mpheap *heap, uint8_t slot, uint8_t into, uint64_t number);

/* Register `into` becomes what `from` is. */
uint32_t mpheap_copy(mpheap *heap, uint8_t slot, uint8_t into, uint8_t from);

/* Register `into` becomes `from` plus the number, modulo 2^64. */
uint32_t mpheap_add(mpheap *heap, uint8_t slot, uint8_t into, uint8_t from, uint64_t number);

/* Register `into` becomes `from` minus `less`, modulo 2^64. */
uint32_t mpheap_sub(mpheap *heap, uint8_t slot, uint8_t into, uint8_t from, uint8_t less);

/* *word becomes what register `from` is. */
uint32_t mpheap_get(mpheap *heap, uint8_t slot, uint8_t from, uint64_t *word);

/* Register `from` goes on the stack. STACK_FULL. */
uint32_t mpheap_push(mpheap *heap, uint8_t slot, uint8_t from);

/* The top of the stack goes into register `into`, and into *word. STACK_EMPTY. */
uint32_t mpheap_pop(mpheap *heap, uint8_t slot, uint8_t into, uint64_t *word);

/* Register `into` becomes the global, and *word too. */
uint32_t mpheap_gget(mpheap *heap, uint8_t slot, uint8_t into, uint8_t global, uint64_t *word);

/* The global becomes what register `from` is. */
uint32_t mpheap_gput(mpheap *heap, uint8_t slot, uint8_t global, uint8_t from);

/* ---- Objects ---- */

/* A new object of at least so many words, all 0, whose base goes into register `into`. Up to MPHEAP_MAX_SMALL_WORDS it has
 * the words of the least size class that holds it (2, 4, 6, 8, 12, 16, 24, 32, 48, 64, 96, 128, 256), else whole pages.
 * BAD_SIZE, FULL: the register stays. */
uint32_t mpheap_alloc(mpheap *heap, uint8_t slot, uint8_t into, uint64_t words);

/* The same of an object whose words the collector never reads: for text, numbers and other bytes. */
uint32_t mpheap_alloc_pointer_free(mpheap *heap, uint8_t slot, uint8_t into, uint64_t words);

/* As mpheap_alloc, and *base becomes the base. */
uint32_t mpheap_alloc_base(mpheap *heap, uint8_t slot, uint8_t into, uint64_t words, uint64_t *base);

/* As mpheap_alloc_pointer_free, and *base becomes the base. */
uint32_t mpheap_alloc_pointer_free_base(mpheap *heap, uint8_t slot, uint8_t into, uint64_t words, uint64_t *base);

/* As mpheap_alloc, up to `most` times in this call: bases[0], bases[1], .. become the bases, and *count how many came. The status is that
 * of the last of these allocations: 0 if all were done, and else BAD_SIZE or FULL behind *count that were, of which the bases are
 * written; the others stay as they were. Each is an allocation of its own: register `into` has the last base alone, so nothing keeps
 * the objects before it from a collection. */
uint32_t mpheap_alloc_many(mpheap *heap, uint8_t slot, uint8_t into, uint64_t words, uint64_t *bases, size_t most, uint64_t *count);

/* The same of objects whose words the collector never reads. */
uint32_t mpheap_alloc_pointer_free_many(mpheap *heap, uint8_t slot, uint8_t into, uint64_t words, uint64_t *bases, size_t most,
                                        uint64_t *count);

/* The object whose base is in register `base` goes, whatever still points into it; links to it are cleared. NO_OBJECT,
 * NOT_BASE. */
uint32_t mpheap_free(mpheap *heap, uint8_t slot, uint8_t base);

/* The word `offset` words behind the address in register `at` goes into register `into`, and into *word. MISALIGNED,
 * NO_OBJECT. */
uint32_t mpheap_load(mpheap *heap, uint8_t slot, uint8_t into, uint8_t at, uint64_t offset, uint64_t *word);

/* The word `offset` words behind the address in register `at` becomes what register `from` is. MISALIGNED, NO_OBJECT. */
uint32_t mpheap_store(mpheap *heap, uint8_t slot, uint8_t at, uint64_t offset, uint8_t from);

/* Register `into` becomes the base of the object that register `from` points into, and *word too. NO_OBJECT. */
uint32_t mpheap_base(mpheap *heap, uint8_t slot, uint8_t into, uint8_t from, uint64_t *word);

/* *count becomes the words of the object that register `from` points into. NO_OBJECT. */
uint32_t mpheap_size(mpheap *heap, uint8_t slot, uint8_t from, uint64_t *count);

/* The base and the words of the kept object that a word points into. An object is kept until a free, a finish or a collect
 * takes it. NO_OBJECT. */
uint32_t mpheap_kept_at(mpheap *heap, uint64_t word, uint64_t *base, uint64_t *words);

/* ---- Links: words of pointer-free objects that become 0 when an object goes ----
 *
 * A link stands at the address of a word of a pointer-free object, its holder, and names an object. It keeps neither. Once the
 * named object goes, by a free, a finish or a collect, that same call makes the word 0, whatever was there, and the link is
 * gone; and so is each link whose holder goes. Between calls then, where the program put the address of the object that a link
 * names into the link's word, it reads there that address while the object is kept, and 0 after. A heap has at most
 * MPHEAP_MAX_LINKS links at a time, and no call on them takes memory. */

/* The word `offset` words (of 8 bytes) behind the address in register `at` becomes a link to the object that register `to` points
 * into; a link that stands there is replaced. No word and no register changes. MISALIGNED; NO_OBJECT where the address points
 * into none; NOT_POINTER_FREE; NO_OBJECT where `to` points into none; LINKS_FULL. Where it is refused, all links stay. */
uint32_t mpheap_link(mpheap *heap, uint8_t slot, uint8_t at, uint64_t offset, uint8_t to);

/* The link at that address, if one stands there, is gone; its word stays. *count becomes 1, or 0 where none stood there: also
 * where the address is misaligned, or points into no object. */
uint32_t mpheap_unlink(mpheap *heap, uint8_t slot, uint8_t at, uint64_t offset, uint64_t *count);

/* ---- The collector ---- */

/* Forgets exactly the objects that are not reached, at once and in any phase; a cycle that is marking is dropped. *count
 * becomes how many. Always done. */
uint32_t mpheap_collect(mpheap *heap, uint64_t *count);

/* A cycle in small steps: begin, or begin_partial; roots; marks and retraces, in any order and as often as one likes; finish. */

/* A cycle begins to mark. The pages that are still to be swept are swept first. WRONG_PHASE: one is marking. */
uint32_t mpheap_begin(mpheap *heap);

/* A partial cycle begins, with the marks of the last one: all that was kept then is taken to be in use, and the cycle reads
 * roots, objects that were allocated since, and pages that were written since. It forgets of the objects allocated since what
 * is not in use, and of older ones none that it need not. WRONG_PHASE: one is marking. NEEDS_FULL: there was no finish and no
 * collect yet; or a mpheap_free was done since the last of these or, where that was a finish, since its cycle began. Then
 * mpheap_begin or mpheap_collect comes first. */
uint32_t mpheap_begin_partial(mpheap *heap);

/* What root words point into is marked. WRONG_PHASE, as in the next three: no cycle is marking. */
uint32_t mpheap_roots(mpheap *heap);

/* At most `most` words of marked objects are read, and what they point into is marked. *count becomes how many were read:
 * fewer than `most` only where none is left. */
uint32_t mpheap_mark(mpheap *heap, uint64_t most, uint64_t *count);

/* The lowest dirty page (one that was written since it was read) is read again, at most 512 words. *count becomes 1, or 0
 * where no page is dirty. */
uint32_t mpheap_retrace(mpheap *heap, uint64_t *count);

/* The cycle ends: roots are read again, what is left is marked, and each object that is not marked is forgotten. *count
 * becomes how many. The less is left to mark, the shorter this pause. */
uint32_t mpheap_finish(mpheap *heap, uint64_t *count);

/* The cells of forgotten objects on one page become free (an allocation does this too, when it needs them). *count becomes 1,
 * or 0 where no page was left. Always done. */
uint32_t mpheap_sweep(mpheap *heap, uint64_t *count);

/* How many finishes and collects were done, modulo 2^64. */
uint64_t mpheap_gc_no(mpheap *heap);

/* Whether a cycle is marking. */
bool mpheap_is_marking(mpheap *heap);

/* Whether an object that begins at this address is kept, and marked. While a cycle marks, with no page dirty and mpheap_mark having
 * answered less than it was asked for, all is marked that the root words as mpheap_roots last read them lead to, and a finish takes
 * exactly what isn't marked, if no root and no word changes before it. So what would go can be found, kept by a root, and given to a
 * finalizer. */
bool mpheap_is_marked(mpheap *heap, uint64_t base);

/* ---- Figures to pace the collector by. They change nothing. ---- */

/* How many pages have no object, and no cell that is still to be swept. */
uint32_t mpheap_free_pages(mpheap *heap);

/* How many pages are dirty: so many retraces have something to read. */
uint32_t mpheap_dirty_pages(mpheap *heap);

/* How many pages are still to be swept. */
uint32_t mpheap_pending_pages(mpheap *heap);

/* How many pages, from the first one on, may have an object: the others are free, and were never used. */
uint32_t mpheap_used_pages(mpheap *heap);

/* The lowest run of free pages from page `low` on, page 0 being the one at MPHEAP_FIRST_ADDRESS: whether there is one, and then
 * its first page and how many there are before one that isn't free. The words of a free page may change until it is used: so
 * the memory of a mapped heap's free pages may be given back to the system (madvise with MADV_DONTNEED). What is allocated
 * there later is 0 none the less. Pages that are still to be swept aren't free yet. */
bool mpheap_free_run(mpheap *heap, uint32_t low, uint32_t *first, uint32_t *pages);

/* ---- WORDS BY POINTERS, in a heap that mpheap_open_mapped opened ----
 *
 * Any word of a kept object may be read at any time between calls. To write, this is owed, and it is all:
 *
 *   Between calls, any 64-bit word may be put at any 8-aligned address of an object that is kept at that moment; and if the
 *   object is not pointer-free and the word lies in the heap's range of addresses, the address was told by mpheap_written
 *   first, after the last mpheap_begin, mpheap_retrace, mpheap_gather, mpheap_finish or mpheap_collect.
 *
 * (Those are the calls that clean pages; a mpheap_retrace is one beside writers too, whichever page it reads.)
 * (It is owed whether a cycle is marking or none is, since a partial cycle reads what was written between two cycles. Before the
 * first mpheap_begin or mpheap_collect of a heap nothing has to be told, nor after a mpheap_free until the next of these, while
 * none is marking. So where cycles are never partial, an object of one's own that is freed behind each mpheap_finish and
 * mpheap_collect is enough, or one mpheap_written_all there: no word has to be told then until the next mpheap_begin.)
 * (A byte that is written is its word written. A write through a dangling pointer, into a forgotten object or a free cell,
 * may break the heap's own lists.) Such writes are then stores to the heap, as if by mpheap_store. */

/* ---- Marking beside writers ----
 *
 * A thread may call mpheap_mark_beside while other threads write words by pointers, in the place of mpheap_mark, which wants all
 * of them to wait. What is owed above is owed still, and besides: while the call runs, no word of an object that is not
 * pointer-free is written but on pages that were dirty when it began (which were told since a call last cleaned them). No other
 * call is made meanwhile. Each word that it reads is one that stood there at some moment of the call: aligned words of 8 bytes have
 * to be written whole, as the processor does by one store. */

/* What a step beside writers is asked: nothing that the program has to fill in. The library's contract names by it which words stood
 * in the heap at each moment of the call. */
typedef struct mpheap_asked {
    uint64_t unread;
} mpheap_asked;
#define MPHEAP_ASKED { 0 }

/* As mpheap_mark, beside writers. */
uint32_t mpheap_mark_beside(mpheap *heap, uint64_t most, const mpheap_asked *asked, uint64_t *count);

/* As mpheap_retrace, beside writers: and on the page that it reads, the lowest dirty one, nobody writes a word of an object that
 * is not pointer-free. */
uint32_t mpheap_retrace_beside(mpheap *heap, const mpheap_asked *asked, uint64_t *count);

/* The same of this page, page 0 being the one at MPHEAP_FIRST_ADDRESS: if it is dirty it is read again, and on it nobody writes such a
 * word. *count becomes 1, or 0 where it is not dirty; a page that the heap has not got is not. */
uint32_t mpheap_retrace_page_beside(mpheap *heap, uint32_t page, const mpheap_asked *asked, uint64_t *count);

/* ---- Marking by several threads ----
 *
 * A round: all that waits to be read is dealt to helpers, C's own threads call mpheap_help side by side, and what they did is gathered.
 * From mpheap_share to mpheap_gather the heap is lent: its handle is closed, no call is made on it, and no word of it is written.
 *
 * A handle of shares is opened once, for as many rounds as one likes, and has a place in which shares of a round stand, or none.
 * mpheap_share puts all shares of a round into one place, in a row; mpheap_hire takes the last one out, to another place for another
 * thread; mpheap_join takes shares back behind those that stand there, so in the reverse order; and mpheap_gather wants all of them.
 * A place from which the last one went, too, isn't empty: the round is known there, and they may come back.
 *
 * Each of these calls but mpheap_help is made by one thread at a time, on a stack of 1 MB or more. mpheap_help may run on several
 * threads at once, each with a handle of its own; what was written before a handle comes to another thread has to be seen there, as by a
 * lock. Memory is asked for by the open (some 100 bytes), by mpheap_share (some hundred KB for each helper, and some 32 bytes for each
 * page that was ever used) and by mpheap_hire (some 20 KB); mpheap_help, mpheap_join and mpheap_gather ask for none.
 *
 * Besides, as with heaps: a handle begins as MPHEAP_NO_SHARES, and is not copied; an open one is not opened again; and each other call is made
 * on handles that are open, and two of one call are two. */
typedef struct mpheap_shares {
    void *at;
} mpheap_shares;
#define MPHEAP_NO_SHARES { 0 }
enum { MPHEAP_MAX_HELPERS = 8 };

/* Makes a place in which no shares stand. NO_MEMORY: *some stays closed. */
uint32_t mpheap_shares_open(mpheap_shares *some);

/* Frees the place; *some is then closed. Shares that stand there are dropped. Their round can't be gathered any more, and with the last
 * shares of it that are dropped the heap goes that was lent. */
void mpheap_shares_close(mpheap_shares *some);

/* All that waits to be read is dealt to so many helpers: their shares stand in *all, and *heap is closed. BAD_NUMBER: 0 helpers, or more
 * than MPHEAP_MAX_HELPERS, or *all isn't empty; WRONG_PHASE: no cycle is marking; NO_MEMORY. Refused, nothing has changed. */
uint32_t mpheap_share(mpheap *heap, uint8_t helpers, mpheap_shares *all);

/* The last share of *all goes to *one. BAD_NUMBER: *one isn't empty, or *all is; NO_MEMORY; BAD_NUMBER: all shares of *all are out. Refused,
 * nothing has changed. */
uint32_t mpheap_hire(mpheap_shares *all, mpheap_shares *one);

/* The work of the shares that stand there: what was dealt to each is read, and what that leads to. It marks as it goes, and of the objects
 * that it was the first to mark each share reads at most `most` words: one that is larger than a sixteenth of what is left of these, or
 * finds no room on the helper's stack, is left to its pages, which become dirty. Answers how many words of such objects it read. Those of entries and
 * pages that were dealt are read however many they are, and counted neither there nor against `most`. Where no shares stand, or all
 * are done, it does nothing, and answers 0. */
uint64_t mpheap_help(mpheap_shares *some, uint64_t most);

/* The shares of *one come back behind those of *all, and *one is empty. Both are of one round: nothing checks this. BAD_NUMBER: one of the two
 * is empty, or they aren't the next behind those of *all, since another one was hired later and is still out. Then nothing has changed. */
uint32_t mpheap_join(mpheap_shares *all, mpheap_shares *one);

/* What the helpers of a round did is put together: *heap, which is closed, is open again, and *all empty. Shares whose work wasn't done
 * are done here, however much it is. No entry is left then, and the dirty pages are those that newly marked objects lie on which weren't
 * read: mpheap_mark and mpheap_finish go on from there, or another mpheap_share. All others are clean, those too that were told before
 * mpheap_share: so what is written there by pointers is told anew. BAD_NUMBER: *all is empty; or a share of the round is out, and nothing has
 * changed; or none is, but another place, from which the last one went, knows the round still. Then *heap stays closed, and nothing is lost. */
uint32_t mpheap_gather(mpheap_shares *all, mpheap *heap);

/* ---- Memory that the caller lends ----
 *
 * The calls of a thread that ask for memory ask malloc for it, but while the thread uses memory that was lent: then they ask for that alone,
 * and neither malloc nor the system for any. So no lock is taken, which a stopped thread may have. */

/* So many bytes, at least 4,096, at an address that is divisible by 16 are made ready to be used: all of them are free. Nothing is read
 * there. To be called again only where nothing of the memory is in use. */
void mpheap_lend_memory(void *at, size_t bytes);

/* The same of what mmap has mapped private and without a file (MAP_PRIVATE | MAP_ANONYMOUS). Large rows of zeros in it are had from the
 * kernel, by MADV_DONTNEED, and not written. */
void mpheap_lend_mapping(void *at, size_t bytes);

/* From now on the calls of this thread use the memory that begins there, and was made ready; or, where `at` is null, malloc again. Where it
 * has no room, NO_MEMORY. What they give back goes where it came from: what malloc gave before is freed when this is called with null. So
 * what came from lent memory has to be given back while it is used: that is, after a mpheap_shares_open, mpheap_share, hire, join or gather
 * under it, so are all further ones of these on that handle and for that heap, the mpheap_shares_close, and the mpheap_close. Threads use
 * one memory one at a time, as they use a heap. */
void mpheap_use_memory(void *at);

/* Tells that the word at an address will be written by a pointer: its page becomes dirty. An address outside of the heap is
 * ignored. */
void mpheap_written(mpheap *heap, uint64_t address);

/* The same of each word of so many bytes at an address, all of one object. */
static inline void mpheap_written_range(mpheap *heap, uint64_t address, uint64_t bytes) {
    uint64_t page = address / MPHEAP_PAGE_BYTES, end = (address + bytes + MPHEAP_PAGE_BYTES - 1) / MPHEAP_PAGE_BYTES;
    for (; bytes != 0 && page < end; page++) mpheap_written(heap, page * MPHEAP_PAGE_BYTES);
}

/* The same of all words of a heap of so many pages. */
static inline void mpheap_written_all(mpheap *heap, uint32_t pages) {
    mpheap_written_range(heap, MPHEAP_FIRST_ADDRESS, (uint64_t)pages * MPHEAP_PAGE_BYTES);
}

/* The pages that need no telling now: those that were told since a call last cleaned one. It begins as MPHEAP_TOLD. mpheap_tells_anew
 * empties it, after an open and after each begin, retrace, gather, finish and collect, at the price of an addition; then mpheap_write tells a
 * page once, at a test of one number for each further write. Pages whose numbers differ by a multiple of MPHEAP_TOLD_PAGES share a
 * place: of these the one that was told last needs none. */
enum { MPHEAP_TOLD_PAGES = 4096 };
typedef struct mpheap_told {
    uint32_t turn; /* how often it was emptied, above the bits of a page's number */
    uint32_t pages[MPHEAP_TOLD_PAGES]; /* the page that was told last, and in which turn */
} mpheap_told;
#define MPHEAP_TOLD { 0, { 0 } }

static inline void mpheap_tells_anew(mpheap_told *told) {
    told->turn += MPHEAP_MOST_PAGES;
    if (told->turn == 0) { /* once in 4,096 times */
        memset(told->pages, 0, sizeof told->pages);
        told->turn = MPHEAP_MOST_PAGES;
    }
}

/* To be called before a write to a word of the mapped heap. An address outside of every heap's addresses is ignored. */
static inline void mpheap_before_write(mpheap *heap, mpheap_told *told, const void *at) {
    uint64_t address = (uint64_t)(uintptr_t)at, page = (address - MPHEAP_FIRST_ADDRESS) / MPHEAP_PAGE_BYTES;
    uint32_t *last = &told->pages[page % MPHEAP_TOLD_PAGES];
    if (page >= MPHEAP_MOST_PAGES || *last == (told->turn | (uint32_t)page)) return;
    *last = told->turn | (uint32_t)page;
    mpheap_written(heap, address);
}

/* Writes a word of the mapped heap. */
static inline void mpheap_write(mpheap *heap, mpheap_told *told, uint64_t *at, uint64_t word) {
    mpheap_before_write(heap, told, at);
    *at = word;
}

/* ---- PACE: a recipe for cycles in small steps ----
 *
 * Two things go wrong easily. A loop "retrace until none is dirty" never ends beside a program that writes: each cycle then
 * runs on until the heap is full. So the rounds have to be bounded. And a program that collects only when the heap is full
 * has its small objects on all pages, so that a large request finds no pages in a row: so a cycle has to begin by how much
 * was allocated. mpheap_step does both. Call it every few allocations, with the words that were allocated since the last
 * call; where an allocation answers FULL, call mpheap_collect and mpheap_paced, and try once more. */
typedef struct mpheap_pace {
    uint64_t begin_after; /* a cycle begins once so many words were allocated since the last one */
    uint64_t mark_words;  /* a step reads at most so many words: more than are allocated between two steps */
    uint32_t max_rounds;  /* so often are the pages that became dirty read again before the cycle ends */
    uint64_t allocated;   /* words since the last cycle or collection began to forget; 0 at the start */
    uint32_t rounds;      /* of the cycle that is marking; 0 at the start */
} mpheap_pace;

/* A pace that suits a heap of so many pages. */
static inline mpheap_pace mpheap_pace_of(uint32_t pages) {
    mpheap_pace pace;
    pace.begin_after = (uint64_t)pages * MPHEAP_PAGE_WORDS / 4;
    pace.mark_words = 512;
    pace.max_rounds = 4;
    pace.allocated = 0;
    pace.rounds = 0;
    return pace;
}

/* To be called after a mpheap_collect of one's own. */
static inline void mpheap_paced(mpheap_pace *pace) {
    pace->allocated = 0;
    pace->rounds = 0;
}

/* One step of the collector. Answers whether it ended a cycle, and how many objects went. (Where words are written by
 * pointers, mpheap_tells_anew has to follow each step.) */
static inline bool mpheap_step(mpheap *heap, mpheap_pace *pace, uint64_t allocated, uint64_t *gone) {
    uint64_t count = 0;
    uint32_t dirty;
    pace->allocated += allocated;
    if (!mpheap_is_marking(heap)) {
        if (pace->allocated < pace->begin_after) {
            mpheap_sweep(heap, &count);
        } else {
            mpheap_begin(heap);
            mpheap_roots(heap);
            pace->rounds = 0;
        }
        return false;
    }
    mpheap_mark(heap, pace->mark_words, &count);
    if (count == pace->mark_words) return false;
    dirty = mpheap_dirty_pages(heap);
    if (dirty > 1 && pace->rounds < pace->max_rounds) {
        pace->rounds++;
        for (; dirty != 0; dirty--) mpheap_retrace(heap, &count);
        return false;
    }
    mpheap_finish(heap, gone);
    mpheap_paced(pace);
    return true;
}

#ifdef __cplusplus
}
#endif
#endif
