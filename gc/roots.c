// The roots: registers, the stack, thread-local and static data, added ranges, uncollectable objects. Trusted, not proved.
//
// What it owes the core: a collection keeps what root words lead to (mpheap_collect, clause CollectsAll; mpheap_finish, clause
// EndsCycle) and nothing more, so each word by which the program may still reach an object has to be a root word then.
//
// It pays with the stack of a mutator. All candidates are read, and those that are addresses of the heap are pushed. When the stack is full,
// the heap marks what it points into (mpheap_roots, clause ReadsRoots.roots), and it is filled anew: what is marked stays marked until the
// cycle ends, and its end keeps all that marks lead to (EndsCycle.forgets). So there is no limit to them.
//
// A callee-saved register may hold the only pointer to an object: they are saved by hand, since `setjmp` of this C library hides some.
// The others are the caller's to save, and lie on its stack.
// Counted under roots, links, finalizers and kinds.
#include "layer.h"
#include <link.h>
#include <sys/syscall.h>
#include <unistd.h>

#ifndef __x86_64__
#error "libmpgc knows the registers of x86-64 alone"
#endif
#define UNCHECKED __attribute__((no_sanitize("address"))) UNSEEN  // it reads words as others wrote them, and red zones

char *GC_stackbottom;  // where the program says that its stack ends
int GC_no_dls;         // objects that were loaded aren't read

struct range { const char *from, *to; };
struct ranges { struct range *at; size_t count, room; };

static struct ranges added, excluded;
static GC_has_static_roots_func is_scanned;

// The mutator whose stack is filled, once there is one, and how far.
static uint8_t filling;
static bool is_attached;
static size_t depth;

static void must(uint32_t status)
{
    if (status != MPHEAP_OK) mpgc_stop("the heap refused a call that it must not refuse");
}

static void empty_stack(void)
{
    if (is_attached) must(mpheap_detach(&mpgc.heap, filling));
    must(mpheap_attach(&mpgc.heap, &filling));
    is_attached = true;
    depth = 0;
}

// Full, what it holds is marked: and what that leads to at once, where a cycle ends, since the core's own stack has no more entries.
static bool is_ending;
static void mark_stack(void)
{
    uint64_t read = 0;
    must(mpheap_roots(&mpgc.heap));
    if (is_ending) must(mpheap_mark(&mpgc.heap, UINT64_MAX, &read));
    mpgc_figures.marked += read;
    empty_stack();
}

static bool has_pushed;
static void push(uint64_t word)
{
    has_pushed = true;
    if (depth == MPHEAP_STACK_WORDS) mark_stack();
    must(mpheap_set(&mpgc.heap, filling, 0, word));
    must(mpheap_push(&mpgc.heap, filling, 0));
    depth++;
}

static void push_inside(uint64_t word)
{
    if (word - FIRST < mpgc.size * PAGE) push(word);
}

static inline uint64_t least(uint64_t a, uint64_t b) { return a < b ? a : b; }

// Every aligned word between the two places. Most lie outside of the heap, and the least of four distances from its first address
// tells this of all four.
UNCHECKED static void scan(const char *from, const char *to)
{
    const uint64_t *word = (const uint64_t *)(((uintptr_t)from + WORD - 1) & ~(WORD - 1));
    const uint64_t *end = (const uint64_t *)((uintptr_t)to & ~(WORD - 1));
    const size_t bytes = mpgc.size * PAGE;
    mpgc_figures.roots += (size_t)(to - from);
    for (; word + 4 <= end; word += 4) {
        uint64_t nearest = least(least(word[0] - FIRST, word[1] - FIRST), least(word[2] - FIRST, word[3] - FIRST));
        for (size_t k = 0; nearest < bytes && k < 4; k++) push_inside(word[k]);
    }
    for (; word < end; word++) push_inside(*word);
}

// The same, without the excluded ranges from the k-th on.
static void scan_static(const char *from, const char *to, size_t k)
{
    for (; k < excluded.count && from < to; k++) {
        struct range *out = &excluded.at[k];
        if (out->to <= from || out->from >= to) continue;
        if (out->from > from) scan_static(from, out->from, k + 1);
        from = out->to;
    }
    if (from < to) scan(from, to);
}

// A writable segment, without what was made read-only after its relocation, and without the layer's own knowledge.
static void scan_segment(const struct dl_phdr_info *object, const ElfW(Phdr) *segment, struct range constant)
{
    const char *from = (const char *)(object->dlpi_addr + segment->p_vaddr), *to = from + segment->p_memsz;
    const char *own = (const char *)&mpgc, *own_end = (const char *)(&mpgc + 1);
    if (is_scanned && !is_scanned(object->dlpi_name, (void *)(uintptr_t)from, (size_t)(to - from))) return;
    if (constant.from <= from && constant.to > from) from = constant.to;
    if (own >= from && own_end <= to) {
        scan_static(from, own, 0);
        from = own_end;
    }
    scan_static(from, to, 0);
}

// Counted under threads.
static void scan_local(const struct dl_phdr_info *object, size_t bytes)
{
    for (const struct thread *one = mpgc.threads; one; one = one->next) {
        bool is_there = one->state == RUNNING || one->state == BLOCKED;
        if (is_there) mpgc_scan_locals(one, object->dlpi_tls_modid, bytes, scan);
    }
}

// Counted under roots, links, finalizers and kinds.
static int scan_object(struct dl_phdr_info *object, size_t size, void *count)
{
    bool is_main = (*(size_t *)count)++ == 0;
    struct range constant = { NULL, NULL };
    for (int k = 0; k < object->dlpi_phnum; k++) {
        const ElfW(Phdr) *part = &object->dlpi_phdr[k];
        if (part->p_type != PT_GNU_RELRO) continue;
        constant.from = (const char *)(object->dlpi_addr + part->p_vaddr);
        constant.to = (const char *)((uintptr_t)(constant.from + part->p_memsz) & ~(PAGE - 1));
    }
    for (int k = 0; k < object->dlpi_phnum; k++) {
        const ElfW(Phdr) *part = &object->dlpi_phdr[k];
        bool is_data = part->p_type == PT_LOAD && (part->p_flags & PF_W) && (is_main || !GC_no_dls);
        if (is_data) scan_segment(object, part, constant);
        if (part->p_type == PT_TLS && size >= sizeof *object) scan_local(object, part->p_memsz);
    }
    return 0;
}

// Where this thread handles a signal on a stack of its own for these: that stack's end.
static const char *end_of_signals_stack(void)
{
    stack_t alt;
    bool is_there = mpgc_call_kernel(SYS_sigaltstack, NULL, &alt) == 0 && (alt.ss_flags & SS_ONSTACK);
    return is_there ? (const char *)alt.ss_sp + alt.ss_size : NULL;
}

// Does the work while this thread's stack counts from there on. The program may have asked for a larger one since: so this is asked once more,
// before the world is stopped, but on a stack of the program's own, or a signal's.
__attribute__((noinline)) static bool work_below(const char *top, bool (*work)(void *), void *data)
{
    struct thread *self = mpgc_self;
    const char *outer = self->top, *outer_alt = self->alt_top, *alt_top = end_of_signals_stack();
    if (!alt_top && self->low && top < self->low && mpgc_stack_bottom() == self->bottom) mpgc_find_stack(&self->low, &self->bottom);
    self->top = top;
    self->alt_top = alt_top;
    bool answer = work(data);
    self->top = outer;
    self->alt_top = outer_alt;
    return answer;
}

// The same with the registers saved, and with the stack's top where the program called in: what the layer and the core leave on the stack
// below are no roots. Never inlined, so that the saved registers lie below all that the program has; and it does no more, so that it keeps none
// of them itself.
__attribute__((noinline)) bool mpgc_with_registers(bool (*work)(void *), void *data)
{
    uint64_t saved[6] = { 0 };
    __asm__ volatile(
        "movq %%r15, 0(%0)\n\tmovq %%r14, 8(%0)\n\tmovq %%r13, 16(%0)\n\t"
        "movq %%r12, 24(%0)\n\tmovq %%rbp, 32(%0)\n\tmovq %%rbx, 40(%0)"
        : : "r"(saved) : "memory");
    bool answer = work_below((const char *)saved, work, data);
    __asm__ volatile("" : : "r"(saved) : "memory");  // no call in place of a return: the frame has to stay
    return answer;
}

// What collects.
bool mpgc_from_here(bool (*work)(void *), void *data)
{
    mpgc_lock();
    bool answer = mpgc_with_registers(work, data);
    mpgc_unlock();
    return answer;
}

static void scan_uncollectable(void)
{
    for (size_t k = 0; mpgc.are_some_reserved && k < mpgc.size * (PAGE / GRANULE / 64); k++)
        for (uint64_t bits = mpgc.uncollectable[k]; bits != 0; bits &= bits - 1)
            push(FIRST + (k * 64 + (size_t)__builtin_ctzll(bits)) * GRANULE);
}

// ---- What the program and the layer push besides, while roots are taken ----

static bool takes_roots;  // the lock is held
void mpgc_take_roots(bool on, bool is_end)
{
    takes_roots = on;
    is_ending = on && is_end;
}
bool mpgc_takes_roots(void) { return takes_roots; }

void mpgc_mark_from(uintptr_t word)
{
    if (!takes_roots || !mpgc_is_inside(word)) return;
    mpgc_inner_call_begins();
    push(word);
    mpgc_inner_call_ends();
}

void mpgc_empty_stack(void)
{
    mpgc_call_begins();
    empty_stack();
    mpgc_call_ends();
    has_pushed = false;
}

// Since it was emptied, or what was pushed then was marked.
bool mpgc_has_pushed(void) { return has_pushed; }

#define PUSHES(name, words) \
    SHOWN void name words; \
    void name words \
    { \
        if (!takes_roots) return; \
        mpgc_call_begins(); \
        scan(from, to); \
        mpgc_call_ends(); \
    }
PUSHES(GC_push_all, (void *from, void *to))
PUSHES(GC_push_all_eager, (void *from, void *to))
PUSHES(GC_push_conditional, (void *from, void *to, __attribute__((unused)) int all))

// This reads the threads' stacks, as with bdwgc. A program that puts a function of its own here calls the one that it found, where it has
// said before where the stacks are; if it doesn't, they are read all the same.
static bool has_read_threads;
static void push_threads(void)
{
    if (!takes_roots) return;
    mpgc_call_begins();
    mpgc_scan_threads(scan, push_inside);
    mpgc_call_ends();
    has_read_threads = true;
}

SHOWN void (*GC_push_other_roots)(void) = push_threads;
SHOWN void GC_set_push_other_roots(void (*push_them)(void));
void GC_set_push_other_roots(void (*push_them)(void)) { GC_push_other_roots = push_them; }
SHOWN void (*GC_get_push_other_roots(void))(void);
void (*GC_get_push_other_roots(void))(void) { return GC_push_other_roots; }

static void push_others(void)
{
    takes_roots = true;
    has_read_threads = false;
    if (GC_push_other_roots) GC_push_other_roots();
    if (!has_read_threads) push_threads();
    takes_roots = false;
}

// The roots are on the stack, or, where they are more than it holds, marked. A cycle is marking, and signals are blocked.
void mpgc_read_roots(void)
{
    size_t objects = 0;
    mpgc_figures.roots = 0;
    mpgc_call_begins();
    must(mpheap_set(&mpgc.heap, mpgc.slot, 0, 0));
    must(mpheap_set(&mpgc.heap, mpgc.slot, 1, 0));
    empty_stack();
    dl_iterate_phdr(scan_object, &objects);
    for (size_t k = 0; k < added.count; k++) scan_static(added.at[k].from, added.at[k].to, 0);
    scan_uncollectable();
    mpgc_call_ends();
    push_others();
}

// Where the main thread's stack began.
extern void *__libc_stack_end;

// This thread's stack. Without /proc, as in a closed room, the C library doesn't tell where the first one's may end; and without memory it tells
// nothing of any. But what it keeps of a thread lies at the end of that one's stack, and of the first one below that.
void mpgc_find_stack(const char **low, const char **bottom)
{
    pthread_attr_t attributes;
    void *from;
    size_t size;
    const char *own = __builtin_thread_pointer();
    LENDING;
    *low = NULL;
    *bottom = own > (const char *)__builtin_frame_address(0) ? own : __libc_stack_end;
    if (pthread_getattr_np(pthread_self(), &attributes) != 0) return;
    pthread_attr_getstack(&attributes, &from, &size);
    pthread_attr_destroy(&attributes);
    *low = from;
    *bottom = (const char *)from + size;
}

// One that a longer one takes the place of isn't read besides: a program may say so of a table each time that it has grown.
static void add_range(struct ranges *ranges, const char *from, const char *to)
{
    if (from >= to) return;
    for (size_t k = 0; k < ranges->count; k++) {
        struct range *one = &ranges->at[k];
        if (one->from <= from && to <= one->to) return;
        if (from > one->from || one->to > to) continue;
        *one = (struct range){ from, to };
        return;
    }
    if (ranges->count == ranges->room) {
        ranges->room = ranges->room ? 2 * ranges->room : 16;
        ranges->at = mpgc_memory(ranges->at, ranges->room * sizeof *ranges->at);
        if (!ranges->at) mpgc_stop("no memory for another range of roots");
    }
    ranges->at[ranges->count++] = (struct range){ from, to };
}

void GC_add_roots(void *from, void *to)
{
    mpgc_enter();
    mpgc_lock();
    add_range(&added, from, to);
    mpgc_unlock();
}

void GC_exclude_static_roots(void *from, void *to)
{
    mpgc_enter();
    mpgc_lock();
    add_range(&excluded, from, to);
    mpgc_unlock();
}

void GC_remove_roots(void *from, void *to)
{
    size_t left = 0;
    mpgc_enter();
    mpgc_lock();
    for (size_t k = 0; k < added.count; k++) {
        bool goes = added.at[k].from >= (const char *)from && added.at[k].to <= (const char *)to;
        if (!goes) added.at[left++] = added.at[k];
    }
    added.count = left;
    mpgc_unlock();
}

// Another thread may be adding one.
static void clear(struct ranges *ranges)
{
    mpgc_lock();
    ranges->count = 0;
    mpgc_unlock();
}

void GC_clear_roots(void) { clear(&added); }

void GC_clear_exclusion_table(void) { clear(&excluded); }

void GC_register_has_static_roots_callback(GC_has_static_roots_func filter) { is_scanned = filter; }

void GC_set_no_dls(int on) { GC_no_dls = on; }

int GC_get_no_dls(void) { return GC_no_dls; }
