// The front of the layer: all that its names (names/) and the wrapped functions of the C library (kernel/) know of it.
//
// These files can't lose an object by what they call, and the compiler sees to it. They include this header alone, which has neither
// `struct layer` nor the calls of the core; gc/build doesn't tell them where mpheap.h lies; and the last lines here refuse them what a
// program frees by, and says its roots and links by. So all that is left to them is what a program may do at any time, and the functions
// below, of which each says why anyone may call it at any time. (Those that go on to the core stop the program if that is in the middle of
// a call, as a signal's handler might be.) So a fault of theirs is a wrong figure, pace or answer, a finalizer that comes too early, late
// or never, a toggle reference that doesn't keep what it should, a system call that answers EFAULT, or a program that is stopped, or hangs.
// What nothing hinders is what any C may do: write at a wrong address, or have the kernel do it; or answer a request for an object that is
// read by one that isn't.
// Counted under the rest.
#ifndef MPGC_FRONT_H
#define MPGC_FRONT_H
#define _GNU_SOURCE
#include <signal.h>
#include <stdbool.h>
#include <stddef.h>
#include <stdint.h>
#include "../include/mpgc/gc.h"
#include "races.h"

#define HIDDEN __attribute__((visibility("hidden")))
#define SHOWN __attribute__((visibility("default")))

// The core's measures, which layer.h compares with those of mpheap.h.
#define PAGE ((size_t)4096)
#define FIRST ((uintptr_t)0x550000000000)
#define WORD ((size_t)8)
#define GRANULE ((size_t)16)
#define MAX_PAGES ((size_t)1 << 20)  // of the largest heap

// What a page was last given to. A fresh one holds no object yet, and one that was given back to the system none any more.
enum page_kind { FRESH, ORDINARY, POINTER_FREE, GIVEN_BACK };

// The pieces of a cycle, of which names/steps.c says which is next.
enum piece { NO_PIECE, SWEEP, START, CLOSE, BEGIN, ROOTS, MARK, REREAD, DESCRIBED, END };

#include "names/asked.h"

// ---- What may be called at any time ----

// It ends the program, with a sentence.
HIDDEN _Noreturn void mpgc_stop(const char *sentence);

// The C library's function of this name, or 0: for one that takes its place, where the loader knows of none behind it.
HIDDEN uintptr_t mpgc_linked(const char *name);

// A collection, and a step of a cycle, of about so many words where it marks; at rest a cycle begins. Each reads all roots itself, and takes
// nothing that they lead to.
HIDDEN void mpgc_collect(void);
HIDDEN void mpgc_step(uint64_t words);

// The handler of the barrier's faults stands from now on, and not only from where pages are closed: a child by vfork has those of its beginning.
HIDDEN void mpgc_will_close(void);

// Pages that are still closed are opened: some, if no cycle marks, which answers whether there were; or all, and told if one does; or all, and none is
// closed any more.
HIDDEN bool mpgc_open_some(void);
HIDDEN void mpgc_leave_open(void);
HIDDEN void mpgc_close_no_more(void);

// More pages are counted as the heap's, if there are: nothing is known of a page, and nothing owed for it, before an object lies there.
HIDDEN bool mpgc_grow(size_t pages);

// direct.c. A call of the kernel, with up to six words or addresses; those that aren't given are 0.
HIDDEN long mpgc_call_with(long number, long first, long second, long third, long fourth, long fifth, long sixth);
#define WITH_WORDS(number, first, second, third, fourth, fifth, sixth, ...) \
    mpgc_call_with(number, (long)(first), (long)(second), (long)(third), (long)(fourth), (long)(fifth), (long)(sixth))
#define mpgc_call_kernel(...) WITH_WORDS(__VA_ARGS__, 0, 0, 0, 0, 0, 0, 0)

// signals.c. No handler of the program comes between these two, which are no more than calls of the C library for it, and aren't taken for the program.
HIDDEN void mpgc_block_signals(sigset_t *old);
HIDDEN void mpgc_restore_signals(const sigset_t *old);

// world.c. The signal by which threads are stopped: SIGPWR, or that which the program names first.
HIDDEN extern int mpgc_stopper;

// Pages are swept, if there are so many that are to be: answers whether there were. And what is free of these is given back to the system.
HIDDEN bool mpgc_sweep_some(size_t pages);
HIDDEN void mpgc_give_back(size_t from, size_t to);

// Counted under roots, links, finalizers and kinds.
// Words of an object that has just been made and is pointer-free are read as a descriptor says: so many bytes of it, again and again. And a
// function that marks has this number. These add to what is read; where there is no memory to know of it the first answers false.
enum tag { BY_LENGTH, BY_BITMAP, BY_PROC, BY_OBJECT };
enum { MPGC_PROCS = 64, MPGC_BITMAP_PROC = 7, MPGC_PROC_BITS = 6, MPGC_TAG_BITS = 2, MPGC_TAGS = 3, MPGC_OBJECT_BIAS = 16 };
struct bitmap { size_t bits; GC_word words[]; };
HIDDEN bool mpgc_describe(void *object, size_t step, size_t bytes, GC_word descriptor, int kind);
HIDDEN void mpgc_set_proc(unsigned number, void *marks);

// While roots are taken, which is at a cycle's end and when the roots are read, what this word points into is marked, or what the words of
// this object point into; and then all that this leads to. To mark more is always right. At any other time these do nothing.
HIDDEN void mpgc_mark_from(uintptr_t word);
HIDDEN void mpgc_mark_from_words(uintptr_t base, size_t words, bool with_itself);
HIDDEN void mpgc_mark_all(void);

// Counted under the rest.
// Pages are told and opened: an open page that was told owes nothing.
HIDDEN void mpgc_will_write(const void *from, size_t bytes);
// They stay open, and count as written, until this thread says so, which others may collect meanwhile.
HIDDEN void mpgc_wrote(void);

// These only read. The object that an address points into, the length of one that begins there, of what kind it is, whether it is marked, whether
// it is still to be given out (where the lock is had), and whether it stays whatever points into it.
HIDDEN bool mpgc_find(uintptr_t address, uintptr_t *base, size_t *words);
HIDDEN size_t mpgc_words_of(uintptr_t base);
HIDDEN enum page_kind mpgc_kind_at(uintptr_t address);
HIDDEN int mpgc_described_kind(uintptr_t base);
HIDDEN bool mpgc_is_marked(uintptr_t base);
HIDDEN bool mpgc_is_in_run(uintptr_t base);
HIDDEN bool mpgc_is_uncollectable(uintptr_t base);

// These too. How many pages the heap has, were last given to a kind, have something, have nothing, ever had something, are to be swept, and
// are dirty; and so many free ones in a row, of those that ever had something, are the lowest from this one on.
HIDDEN size_t mpgc_pages(void);
HIDDEN size_t mpgc_pages_of(enum page_kind kind);
HIDDEN size_t mpgc_open_pages(void);
HIDDEN size_t mpgc_used_pages(void);
HIDDEN size_t mpgc_free_pages(void);
HIDDEN size_t mpgc_ever_used_pages(void);
HIDDEN size_t mpgc_pending_pages(void);
HIDDEN size_t mpgc_dirty_pages(void);
HIDDEN size_t mpgc_free_run(size_t from, size_t *first);

// And these: words that count as asked for, and weren't given out yet; words that were freed since the last collection, or since this was last
// asked to begin anew, and count as asked for again; and that more is known of an object than its size and kind, and whether it
// is uncollectable.
HIDDEN size_t mpgc_words_in_runs(void);
HIDDEN size_t mpgc_words_taken_back(bool begins_anew);
HIDDEN void mpgc_know_more(uintptr_t base);

// And these. Whether a cycle marks, there was ever a second thread, every other one has ended, and the program has ever said where a thread's
// stack ends; one that was stopped hasn't gone on yet; a stop would wait for no thread; the links that stand, and the described objects; this
// thread, if it is known, and its stack, as the program or the C library says where it ends.
HIDDEN bool mpgc_is_marking(void);
HIDDEN bool mpgc_is_threaded(void);
HIDDEN bool mpgc_is_last_thread(void);
HIDDEN bool mpgc_has_lock(void);
HIDDEN bool mpgc_has_own_stacks(void);
HIDDEN bool mpgc_is_one_standing(void);
HIDDEN bool mpgc_stops_nobody(void);
HIDDEN size_t mpgc_count_links(void);
HIDDEN size_t mpgc_count_described(void);
HIDDEN void *mpgc_this_thread(void);
// Whether another thread may stop this one: which may make requests then, since it is known, isn't blocked and hasn't the lock.
HIDDEN bool mpgc_may_be_stopped(void);
HIDDEN char *mpgc_stack_bottom(void);
HIDDEN void mpgc_find_stack(const char **low, const char **bottom);

// threads.c. A thread is made, which is known; the program has told of it, or hasn't.
HIDDEN int mpgc_create(pthread_t *thread, const pthread_attr_t *attributes, void *(*start)(void *), void *data, bool is_told);

// lock.c. A program may take the lock, and give it back.
#undef GC_alloc_lock
#undef GC_alloc_unlock
SHOWN void GC_alloc_lock(void);
SHOWN void GC_alloc_unlock(void);
// Memory as of realloc, calloc and free. Meanwhile the lock is lent to who waits for it to write, if this thread has it and is under no call of the core.
HIDDEN void *mpgc_memory(void *had, size_t bytes);
HIDDEN void *mpgc_cleared_memory(size_t count, size_t bytes);
HIDDEN void mpgc_drop_memory(void *had);
// And let those have it first that wait for it, if for no longer than a moment.
HIDDEN void mpgc_give_way(void);

#ifndef MPGC_LAYER_H
#pragma GCC poison GC_free GC_realloc GC_debug_free GC_debug_realloc GC_debug_realloc_replacement
#pragma GCC poison GC_stackbottom GC_set_stackbottom GC_no_dls GC_set_no_dls GC_all_interior_pointers GC_set_all_interior_pointers
#pragma GCC poison GC_add_roots GC_remove_roots GC_clear_roots GC_exclude_static_roots GC_clear_exclusion_table
#pragma GCC poison GC_register_has_static_roots_callback GC_push_other_roots GC_set_push_other_roots
#pragma GCC poison GC_general_register_disappearing_link GC_register_disappearing_link GC_unregister_disappearing_link
#pragma GCC poison GC_move_disappearing_link GC_register_long_link GC_unregister_long_link GC_move_long_link
#endif

#endif
