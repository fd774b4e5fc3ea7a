// Objects of kinds of which a function of the program is asked before they go (disclaim). At a cycle's end those that nothing reaches are
// marked, with all that they lead to, behind links and finalizers, so that no link leads to them; when the others run again the function is
// called. One that it lets go isn't asked for any more, and goes at the next cycle's end.
#include "awaited.h"

typedef int (*disclaim)(void *object);
enum { KINDS = 64 };
static disclaim of_kind[KINDS];
static bool marks_from[KINDS];  // what an object leads to is kept until it was asked itself
static struct object { GC_hidden_pointer hidden; int kind; bool is_asked; uint32_t next; } *all;
static size_t count, room;
static uint32_t *chains;  // by which each is found: of numbers from 1 on

bool mpgc_has_disclaimed(void) { return count > 0; }

static uint32_t *place_of(GC_hidden_pointer hidden)
{
    static uint32_t none;
    uint32_t *at = room == 0 ? &none : &chains[hidden / GRANULE * 0x9E3779B97F4A7C15u >> 20 & (room - 1)];
    while (*at != 0 && all[*at - 1].hidden != hidden) at = &all[*at - 1].next;
    return at;
}

static void put(struct object one)
{
    uint32_t *at = place_of(one.hidden);
    one.next = 0;
    all[count] = one;
    *at = (uint32_t)++count;
}

// The last one stands there then.
static void drop(size_t k)
{
    *place_of(all[k].hidden) = all[k].next;
    if (k == --count) return;
    *place_of(all[count].hidden) = (uint32_t)k + 1;
    all[k] = all[count];
}

static bool has_room(void)
{
    if (count < room) return true;
    size_t larger = room ? 2 * room : 64, many = count;
    struct object *made = mpgc_memory(all, larger * sizeof *made);
    if (made) all = made;
    uint32_t *longer = made ? mpgc_cleared_memory(larger, sizeof *longer) : NULL;
    if (!longer) return false;
    mpgc_drop_memory(chains);
    chains = longer;
    room = larger;
    for (count = 0; count < many;) put(all[count]);
    return true;
}

// An object of this kind was made. A handler that collected meanwhile would have others go.
void *mpgc_note_disclaimed(void *object, int kind)
{
    sigset_t old;
    if (!GC_is_heap_ptr(object) || kind < 0 || kind >= KINDS || !of_kind[kind] || GC_find_leak) return object;
    GC_alloc_lock();
    mpgc_block_signals(&old);
    mpgc_know_more((uintptr_t)object);
    if (has_room()) put((struct object){ GC_HIDE_POINTER(object), kind, false, 0 });
    mpgc_restore_signals(&old);
    GC_alloc_unlock();
    return object;
}

// Before links and finalizers, which it keeps.
void mpgc_mark_from_disclaimed(void)
{
    uintptr_t base;
    size_t words;
    for (size_t k = 0; k < count; k++)
        if (marks_from[all[k].kind] && !mpgc_is_marked(~all[k].hidden) && mpgc_find(~all[k].hidden, &base, &words))
            mpgc_mark_from_words(base, words, true);
}

void mpgc_find_disclaimed(void)
{
    for (size_t k = 0; k < count; k++) all[k].is_asked = !mpgc_is_marked(~all[k].hidden);
    for (size_t k = 0; k < count; k++)
        if (all[k].is_asked) mpgc_mark_from(~all[k].hidden);
}

int mpgc_disclaimed_kind(uintptr_t base)
{
    GC_alloc_lock();
    uint32_t number = *place_of(~base);
    int kind = number != 0 ? all[number - 1].kind : -1;
    GC_alloc_unlock();
    return kind;
}

// An object of the program's is freed, and nothing is asked for it.
void mpgc_forget_disclaimed(uintptr_t base)
{
    uint32_t number = *place_of(~base);
    if (number != 0) drop(number - 1);
}

// Asks the function of its kind, under the signals of the program.
static bool is_let_go(const struct object *one, sigset_t *signals)
{
    void *volatile object = GC_REVEAL_POINTER(one->hidden);
    mpgc_restore_signals(signals);
    bool answer = of_kind[one->kind](object) == 0;
    mpgc_block_signals(signals);
    return answer;
}

// The cycle has ended, other threads run, and the lock is held. The function, or a handler under it, may make objects, and the table move; or collect,
// so that others are asked meanwhile and go, and this one, which isn't asked again, stands elsewhere.
void mpgc_call_disclaimed(void)
{
    sigset_t old;
    if (count == 0) return;
    mpgc_block_signals(&old);
    for (size_t k = 0; k < count;) {
        const struct object one = all[k];
        all[k].is_asked = false;
        bool goes = one.is_asked && is_let_go(&one, &old);
        if (!goes)
            k++;
        else if (k < count && all[k].hidden == one.hidden)
            drop(k);
        else
            mpgc_forget_disclaimed(~one.hidden);
    }
    mpgc_restore_signals(&old);
}

SHOWN void GC_register_disclaim_proc(int kind, disclaim function, int marks_from_all);
void GC_register_disclaim_proc(int kind, disclaim function, int marks_from_all)
{
    if (kind < 0 || kind >= KINDS) mpgc_stop("GC_register_disclaim_proc of a kind that nobody made");
    of_kind[kind] = function;
    marks_from[kind] = marks_from_all != 0;
}

// Finalized objects have a finalizer, which finds function and data as they are then.
struct closure { GC_finalization_proc function; void *data; };
static void call_closure(void *object, void *closure)
{
    const struct closure *one = closure;
    one->function(object, one->data);
}
SHOWN void GC_init_finalized_malloc(void);
void GC_init_finalized_malloc(void) { GC_init(); }
SHOWN void *GC_finalized_malloc(size_t bytes, const struct closure *closure);
void *GC_finalized_malloc(size_t bytes, const struct closure *closure)
{
    void *object = GC_malloc(bytes);
    if (object) GC_register_finalizer(object, call_closure, (void *)(uintptr_t)closure, NULL, NULL);
    return object;
}
