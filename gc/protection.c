// The write barrier: which pages are closed (write-protected), when they are opened, and when they are told. Trusted, not proved.
//
// What it owes the core, of mpheap.h:
//
//   "if the object is not pointer-free and the word lies in the heap's range of addresses, the address was told by mpheap_written first,
//   after the last mpheap_begin, mpheap_retrace, mpheap_gather, mpheap_finish or mpheap_collect"
//                                                  mpheap_written, clause TellsWritten; mpheap_retrace, clauses RetracesLowest.lowest and
//                                                  Retraces.others; mpheap_retrace_page_beside, clauses ReadsThisPage and Retraces.others
//
// It pays by one rule, true whenever the program runs while a cycle marks:
//
//   A page that is not closed was told, or holds no ordinary object.
//
//   - A write to a closed page faults; `mpgc_let_write` tells it and the closed ones beside it (or notes them, under a call of the core, or
//     while a thread forks, which has the lock until they are told), and only then opens them.
//   - `mpheap_begin` cleans every page. Most were closed before it, a few at a time; `mpgc_tell_open` tells the others of ordinary
//     objects, before the program runs on. So no page is closed in the stop of a beginning.
//   - `mpheap_retrace_page_beside` cleans the page that it is given and no other. It is given those that `mpgc_close_lowest` has just
//     closed, and the program doesn't run between.
//   - `mpheap_retrace` and `mpheap_retrace_beside` clean the lowest dirty page and no other. They are called where no open page is to be
//     closed (`mpgc_is_one_to_close`): then that page is closed, holds no ordinary object, or is pinned.
//   - A page that comes to hold ordinary objects while it is open is told then (pages.c).
//   - A page that the core itself writes to under a call faults too. It is noted, and told when the call has returned, before the
//     program writes there; or a handler of the program writes there before, and makes a step: then it is told before that one (cycle.c, collect.c).
//   - The kernel makes no fault. Pages to which it writes for a thread are pinned meanwhile (pins.c): told and open, not closed, told when a
//     cycle has begun as all open ones are, and anew behind retraces that may have cleaned them (`mpgc_tell_pinned`).
//   - No handler of the program comes between a page's telling and its opening, nor where pages that were noted are told: it might make a step,
//     which cleans them.
//
// Why it holds beside several threads. Who tells, opens, closes or cleans a page has the lock, so these come one after the other. While a
// cycle marks, pages are closed and cleaned only while no other thread runs (world.c), but for those of a step beside threads, below. Where two threads fault on one page, the first to
// have the lock tells and opens it; the second finds it open, and makes its write again. A thread that is stopped between its fault and its
// handler, or waits there for the lock, hasn't written yet: what it finds afterwards is a closed page, which it tells, or an open one, which
// was told since it was closed last. A thread that is stopped before its write faults when it goes on, if the page was closed meanwhile. So
// each write comes after a telling behind which no call has cleaned its page. It may fall beside a call that another thread makes, but not
// beside one that reads the program's words or cleans pages: beside one that allocates, frees, sweeps, tells or looks, which touches no
// word of an object that the program has. The object that it writes into is kept before the call and behind it, and is pointer-free or the
// page dirty: so it is as good behind the call (the law WrittenBesideCallsIsWrittenAfter). And it may come between a page's opening under a
// call and its telling at that call's end: nothing reads there meanwhile, so it is as good behind the telling.
//
// Why it holds beside a step, where the collector has a thread of its own (names/collector.c), and the others run while it reads. Owed is
// besides, of mpheap.h, "while the call runs, no word of an object that is not pointer-free is written but on pages that were dirty when it
// began", of mpheap_retrace_beside, "on the page that it reads, the lowest dirty one, nobody writes" such a word, and of
// mpheap_retrace_page_beside, of its page, "on it nobody writes such a word".
//
//   1. A step has the lock from before its first call until behind its last. Who tells, opens, closes or cleans a page, allocates, frees or
//      sweeps has it too: so none of these falls into a step.
//   2. The rule above holds whenever nobody has the lock. What was opened under a call, or in the middle of a telling, is told before the
//      lock is given back, or at the latest before the step (mpgc_tell_noted). So when a step begins each open page of ordinary
//      objects is dirty: it was told, and only closed pages were cleaned since; pinned ones may be cleaned in a stop, and are told anew there.
//   3. While it runs, a write to a closed page faults before anything is written, and its handler waits for the lock, behind this step and no
//      other (mpgc_give_way, lock.c). A write to an open page is done at once, and lies on a dirty page. That is the first thing owed.
//   4. To read pages again, a run of the lowest open ones is closed, none of them pinned, and just these are read, with marking between, before
//      the lock is given back. Where there is none, the lowest dirty ones are read, each of which is closed, holds no ordinary object, or is pinned: so while
//      a page is pinned this is done in a stop. That is the second thing.
//   5. Before mprotect has closed a page each processor that could write there has dropped its translation, and so has made its stores there:
//      the step sees them. A thread whose store comes later faults. A store is done again when its thread goes on, and may fault again.
//   6. A word is read by one aligned load of 8 bytes, once (tests/gc/loads.sh looks at the code), and such a load isn't torn: it sees what
//      stood there at one moment, whole pointer or half of one.
//   7. An object that a thread takes from its run without the lock was allocated under it: marked, if a cycle marked then, and else a root
//      of each reading of roots, until it is taken. Then its words are written as any object's are, and a root or a word names it.
//   8. Roots are read for the last time in the stop that ends the cycle. A pointer that moved between registers, objects that were read and
//      objects that weren't is a root then, or stands in a new place: which is a word of a dirty page, that mpheap_finish reads.
//   9. A handler's thread may have the lock itself, and then takes it again: it isn't the collector's, whose steps write no word of the heap.
//      A thread that is stopped in its handler has written nothing; in a child there is no other thread, and no step was under way.
//
// Of this are proved, below: what is owed (the clauses above), and that a program which pays it loses nothing, whatever it writes
// (heap_core, the laws of direct writes); and that a step beside writers keeps the marks' invariant whatever of the moments' words it reads,
// and counts as lines before which, or behind which, these writes were made (MarksBeside, RetracesBeside, RetracesPageBeside,
// BesideIsLines, WrittenBesideIsWrittenAfter); and that a write beside one that allocates, frees, sweeps, tells or looks is as good behind it, if that call
// touches no word of an object that the program has (WrittenBesideCallsIsWrittenAfter). That it touches none is argued here, as is all that
// the kernel and the processor do (5 and 6 of them).
//
// Where no cycle marks nothing is owed, since a full cycle is needed then (spare.c): pages that are still closed are opened untold, by
// blocks, at a write or a few at a time.
// Counted under the rest.
#include "layer.h"
#include <errno.h>
#include <string.h>
#include <sys/mman.h>

static bool is_closing;            // pages are being closed, and then a cycle begins
static atomic_size_t lowest_open;  // while a cycle marks, no open page of ordinary objects lies below, but pinned ones
static size_t closing;             // so far pages were closed for the next cycle

static void *page_start(size_t page) { return (void *)(FIRST + page * PAGE); }

// Counted under sizes and memory.
// A run of pages between others of the other kind is a mapping of its own, of which the kernel allows some 65,000 to a process. So from so
// many changes on, or where the kernel refuses one, since the program has as many itself, no page is closed, and pages are opened by blocks, until
// all are open again.
enum { CHANGES = 16000 };
static size_t changes;
static bool is_limited;  // none is closed from now on
static bool is_crowded(void) { return is_limited || changes >= CHANGES; }

static bool is_set(size_t page, size_t count, int access)
{
    changes++;
    bool answer = mprotect(page_start(page), count * PAGE, access) == 0;
    if (!answer) changes = CHANGES;
    return answer;
}

// Counted under the rest.
// One event of the law, told of one address.
static void tell_now(size_t page)
{
    mpgc.is_calling = 1;
    mpheap_written(&mpgc.heap, FIRST + page * PAGE);
    mpgc.is_calling = 0;
}

static void note(size_t page)
{
    mpgc.is_noted[page] = 1;
    atomic_fetch_or(&mpgc.noted, (uint64_t)1 << page / GROUP);
}

// The first page from here on whose byte is 1, or the end.
static size_t next_set(const volatile uint8_t *bytes, size_t from, size_t end)
{
    const uint8_t *first = (const uint8_t *)bytes, *found = memchr(first + from, 1, end - from);
    return found ? (size_t)(found - first) : end;
}

// No handler of the program comes between: what is no more noted, and not yet told, would be neither if it ended the cycle.
void mpgc_tell_noted(void)
{
    uint64_t groups;
    sigset_t old;
    if (mpgc.noted == 0) return;
    mpgc_block_signals(&old);
    while ((groups = atomic_exchange(&mpgc.noted, 0)) != 0) {
        for (; groups != 0; groups &= groups - 1) {
            size_t first = (size_t)__builtin_ctzll(groups) * GROUP, end = first + GROUP;
            for (size_t page = next_set(mpgc.is_noted, first, end); page < end; page = next_set(mpgc.is_noted, page, end)) {
                mpgc.is_noted[page] = 0;
                if (mpgc.is_marking) tell_now(page);
            }
        }
    }
    mpgc_restore_signals(&old);
}

// No lower one is open, of those that are to be closed. In one step, whatever a handler of the program opens meanwhile.
void mpgc_lower_to(size_t page)
{
    size_t seen = lowest_open;
    while (page < seen && !atomic_compare_exchange_weak(&lowest_open, &seen, page)) continue;
}

// While a cycle marks.
static void tell(size_t page)
{
    if (mpgc.is_calling || mpgc.forks)
        note(page);
    else
        tell_now(page);
}

// Counted under sizes and memory.
// The kernel refused to part a mapping. So the whole run of closed pages is opened in which this one lies, and told: that parts none.
static void open_run(size_t page)
{
    size_t first = page, end = page + 1;
    while (first > 0 && mpgc.is_closed[first - 1]) first--;
    while (end < mpgc.size && mpgc.is_closed[end]) end++;
    for (size_t at = first; mpgc.is_marking && at < end; at++) tell(at);
    mpgc_lower_to(first);
    if (!is_set(first, end - first, PROT_READ | PROT_WRITE)) mpgc_stop("the kernel refused to open pages of the heap");
    memset((void *)&mpgc.is_closed[first], 0, end - first);
}

// Counted under the rest.
// These pages, which are closed. A handler of the program may write there at any moment: so a page counts as closed until it is open.
static void open_pages(size_t page, size_t count)
{
    if (is_set(page, count, PROT_READ | PROT_WRITE))
        memset((void *)&mpgc.is_closed[page], 0, count);
    else
        open_run(page);
}

// Those of these pages that are closed, and no others: of pointer-free objects the program may have protected some itself.
static void open_those(size_t first, size_t end)
{
    for (size_t page = next_set(mpgc.is_closed, first, end), after; page < end; page = next_set(mpgc.is_closed, after, end)) {
        for (after = page; after < end && mpgc.is_closed[after];) after++;
        open_pages(page, after - page);
    }
}

static void tell_those(size_t first, size_t end)
{
    for (size_t page = next_set(mpgc.is_closed, first, end); page < end; page = next_set(mpgc.is_closed, page + 1, end)) tell(page);
}

// Those of these pages that are closed are opened; and first, while a cycle marks, each of them is told.
static void tell_and_open(size_t first, size_t end)
{
    if (mpgc.is_marking) tell_those(first, end);
    mpgc_lower_to(first);
    open_those(first, end);
}

static void open_block(size_t page)
{
    size_t first = page - page % BLOCK;
    tell_and_open(first, first + BLOCK);
}

// This page, and those of its four that are closed too, one behind another, so that one call opens them. They are mostly written soon, and a fault
// costs as much as to read three pages again.
static void open_few(size_t page)
{
    enum { FEW = 4 };
    size_t lowest = page - page % FEW, first = page, end = page + 1;
    while (first > lowest && mpgc.is_closed[first - 1]) first--;
    while (end < lowest + FEW && mpgc.is_closed[end]) end++;
    tell_and_open(first, end);
}

// A write to this closed page is to be made.
void mpgc_let_write(size_t page)
{
    if (is_crowded() || !(mpgc.is_marking || is_closing))
        open_block(page);
    else
        open_few(page);
}

static bool is_open_ordinary(size_t page) { return mpgc.kind[page] == ORDINARY && !mpgc.is_closed[page]; }

static bool is_to_close(size_t page) { return is_open_ordinary(page) && mpgc.pins[page] == 0; }

// Closes the pages from this one on that are to be closed, at most so many, up to one that stays open, and answers the page after them. A few that
// are closed already are set with them, by one call. Where the kernel refuses it, some of them may be closed by then: all are opened, and none
// is closed.
static size_t close_run(size_t page, size_t most)
{
    enum { BETWEEN = 16 };
    size_t end = page;
    for (size_t at = page; at < mpgc.size && most > 0 && at - end <= BETWEEN && (mpgc.is_closed[at] || is_to_close(at)); at++) {
        if (mpgc.is_closed[at]) continue;
        mpgc.is_closed[at] = 1;
        end = at + 1;
        most--;
    }
    if (is_set(page, end - page, PROT_READ)) return end;
    open_run(page);
    return page;
}

void mpgc_start_closing(void)
{
    mpgc_take_faults();
    changes = mpgc.is_closed[0];
    for (size_t page = 1; page < mpgc.size; page++) changes += mpgc.is_closed[page] != mpgc.is_closed[page - 1];
    is_closing = true;
    closing = 0;
}

// The barrier's handler stands, as it has to before a page is closed.
static void must_be_closing(void)
{
    if (!is_closing) mpgc_stop("a cycle went on that wasn't started");
}

// Of the next block of pages those of ordinary objects are closed. Answers whether there are more.
bool mpgc_close_some(void)
{
    must_be_closing();
    enum { BLOCKS = 4 };
    size_t end = closing + BLOCKS * BLOCK < mpgc.size ? closing + BLOCKS * BLOCK : mpgc.size;
    while (closing < end) closing = is_to_close(closing) && !is_crowded() ? close_run(closing, end - closing) : closing + 1;
    return closing < mpgc.size;
}

// How many pages of ordinary objects are open.
size_t mpgc_open_pages(void)
{
    size_t count = 0;
    for (size_t page = 0; page < mpgc.size; page++) count += is_open_ordinary(page);
    return count;
}

// A cycle has just begun: what holds ordinary objects and isn't closed is told.
void mpgc_tell_open(void)
{
    must_be_closing();
    for (size_t page = 0; page < mpgc.size; page++)
        if (is_open_ordinary(page)) tell_now(page);
    is_closing = false;
    lowest_open = 0;
}

// Whether an open page is to be closed, under blocked signals.
bool mpgc_is_one_to_close(void)
{
    size_t page = lowest_open;
    while (page < mpgc.size && !is_to_close(page)) page++;
    lowest_open = page;
    return page < mpgc.size;
}

// Closes the lowest run of open pages, of at most so many, under blocked signals, and answers which were closed: none where none is to be,
// or no more may.
struct pages mpgc_close_lowest(size_t most)
{
    bool is_one = mpgc_is_one_to_close() && !is_crowded();
    size_t page = lowest_open, end = is_one ? close_run(page, most) : page;
    if (end > page) lowest_open = end;
    return (struct pages){ page, end };
}

// Does the work, if there is one, with each page of ordinary objects that stays open for the kernel. Answers how many there are: a page
// counts as often as it is pinned.
static size_t each_pinned(void (*work)(size_t page))
{
    size_t count = 0;
    for (const struct thread *one = mpgc.threads; one; one = one->next) {
        for (const struct pin *pin = one->pinned; pin < one->pinned + one->pins; pin++) {
            for (size_t page = pin->pages.from; page < pin->pages.to; page++) {
                if (!is_open_ordinary(page)) continue;
                if (work) work(page);
                count++;
            }
        }
    }
    return count;
}

// Counted under the collector's thread.
// Whether a page of ordinary objects stays open for the kernel.
bool mpgc_is_pinned(void) { return each_pinned(NULL) > 0; }

// Counted under the rest.
// To be called behind retraces of the lowest pages, before another thread runs: they may have cleaned some that stayed open.
void mpgc_tell_pinned(void) { (void)each_pinned(tell_now); }

// No cycle marks, and none begins to.
void mpgc_stop_closing(void) { is_closing = false; }

// The lowest page that is closed, or the heap's end. Where nothing has changed since all were open none is.
static size_t lowest_closed(void)
{
    if (changes == 0) return mpgc.size;
    size_t page = next_set(mpgc.is_closed, 0, mpgc.size);
    if (page == mpgc.size) changes = 0;
    return page;
}

// Where no cycle marks: the block of the lowest closed page is opened again. Answers whether there was one. A handler of the program might
// begin a cycle between.
bool mpgc_open_some(void)
{
    sigset_t old;
    mpgc_lock();
    bool is_one = lowest_closed() < mpgc.size;
    if (is_one) {
        mpgc_block_signals(&old);
        is_one = !mpgc.is_marking && lowest_closed() < mpgc.size;
        if (is_one) open_block(lowest_closed());
        mpgc_restore_signals(&old);
    }
    mpgc_unlock();
    return is_one;
}

// The program writes nothing until no cycle marks.
void mpgc_open_all(void)
{
    if (lowest_closed() == mpgc.size) return;
    open_those(0, mpgc.size);
    changes = 0;
}

// If a cycle marks it stands still, with every page told and open; and else nothing is owed.
void mpgc_leave_open(void)
{
    sigset_t old;
    mpgc_lock();
    mpgc_block_signals(&old);
    for (size_t page = 0; mpgc.is_marking && page < mpgc.size; page++) tell(page);
    mpgc_open_all();
    lowest_open = 0;
    mpgc_restore_signals(&old);
    mpgc_unlock();
}

// Counted under sizes and memory.
// Closed pages are no data to the kernel: so it would refuse to open them, where the process comes to have more than it may. Or it comes to write where
// no call tells of it.
void mpgc_close_no_more(void)
{
    mpgc_lock();
    is_limited = true;
    mpgc_leave_open();
    mpgc_unlock();
}

// Counted under the rest.
// While a cycle marks, ordinary objects came to lie on a page of another kind.
void mpgc_holds_ordinary(size_t page)
{
    if (mpgc.is_closed[page]) return;
    mpgc_lower_to(page);
    tell_now(page);
}

// Pointer-free objects came to lie on a page of another kind.
void mpgc_holds_pointer_free(size_t page)
{
    if (!mpgc.is_closed[page]) return;
    mpgc_lower_to(page);
    open_pages(page, 1);
}
