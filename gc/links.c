// Disappearing links: words of the program that are cleared once an object is gone, as many as it likes. Trusted, not proved.
//
// At a cycle's end, once all is marked that will stay, a link whose object isn't marked is taken out of the table: a short one before
// finalizers are looked for, a long one behind them (`mpgc_decide_links`). When the cycle has ended, and nothing is owed until the next
// one, its word is cleared, before the program runs on (`mpgc_clear_links`). Both the word and the object are kept in mind hidden.
//
// What it owes the core, of mpheap.h:
//
//   "any 64-bit word may be put at any 8-aligned         a word of the program that lay in an object which is gone is left as it is, and
//   address of an object that is kept at that moment"    its link is gone too
//
// Nothing is freed while other threads are stopped (table.c).
// Counted under roots, links, finalizers and kinds.
#include "layer.h"

// Its number hides the word, whose lowest bit says there whether it is short.
struct link { struct entry entry; GC_hidden_pointer object; };
static struct table links;
static struct entry *to_clear, *to_free;

static struct entry **place_of(void **word, bool is_long) { return mpgc_place(&links, GC_HIDE_POINTER(word) - is_long); }

static void **word_of(const struct entry *one) { return (void **)~(one->number | 1); }

// Those of which `goes` says so are put on the list.
static void move_those(bool (*goes)(const struct entry *one), struct entry **list)
{
    enum { AHEAD = 12 };  // so many are fetched ahead, since they lie all over the memory
    for (size_t k = 0; links.count > 0 && k < links.room; k++) {
        if (k + AHEAD < links.room) __builtin_prefetch(links.chains[k + AHEAD]);
        for (struct entry **at = &links.chains[k]; *at;) {
            if (goes(*at))
                mpgc_push(list, mpgc_take(&links, at));
            else
                at = &(*at)->next;
        }
    }
}

// Of a short one it was decided before, and what was marked then is marked.
static bool is_unmarked(const struct entry *one) { return !mpgc_is_marked_here(~((const struct link *)one)->object); }
static bool is_short_unmarked(const struct entry *one) { return (one->number & 1) && is_unmarked(one); }
static bool is_long_unmarked(const struct entry *one) { return !(one->number & 1) && is_unmarked(one); }

void mpgc_decide_links(bool is_long) { move_those(is_long ? is_long_unmarked : is_short_unmarked, &to_clear); }

static bool lies_in_what_is_gone(const struct entry *one)
{
    uintptr_t base, word = (uintptr_t)word_of(one);
    size_t words;
    return mpgc_is_inside(word) && !mpgc_find(word, &base, &words);
}

// A cycle has ended, and the program doesn't run.
void mpgc_clear_links(void)
{
    move_those(lies_in_what_is_gone, &to_free);
    while (to_clear) {
        struct entry *one = mpgc_pop(&to_clear);
        if (!lies_in_what_is_gone(one)) *word_of(one) = NULL;
        mpgc_push(&to_free, one);
    }
}

size_t mpgc_count_links(void) { return links.count; }

static int set_link(void **word, const void *object, bool is_long)
{
    uintptr_t base;
    size_t words;
    if (!word || (uintptr_t)word % WORD != 0) mpgc_stop("a disappearing link at what isn't the address of a word");
    if (!mpgc_find((uintptr_t)object, &base, &words)) mpgc_stop("a disappearing link to what isn't an object of the heap");
    mpgc_free_all(&to_free);
    struct entry **at = place_of(word, is_long);
    struct link *one = *at ? (struct link *)*at : mpgc_memory(NULL, sizeof *one);
    if (!one) return GC_NO_MEMORY;
    one->object = GC_HIDE_POINTER(base);
    mpgc_know_more(base);
    if (*at) return GC_DUPLICATE;
    one->entry.number = GC_HIDE_POINTER(word) - is_long;
    if (mpgc_put(&links, &one->entry)) return GC_SUCCESS;
    mpgc_drop_memory(one);
    return GC_NO_MEMORY;
}

static int remove_link(void **word, bool is_long)
{
    struct entry **at = place_of(word, is_long);
    if (!*at || (uintptr_t)word % WORD != 0) return 0;
    mpgc_drop_memory(mpgc_take(&links, at));
    return 1;
}

static int move_link(void **word, void **into, bool is_long)
{
    struct entry **at = place_of(word, is_long);
    if (!*at || (uintptr_t)word % WORD != 0) return GC_NOT_FOUND;
    if (word == into) return GC_SUCCESS;
    if (*place_of(into, is_long)) return GC_DUPLICATE;
    if (!into || (uintptr_t)into % WORD != 0) mpgc_stop("a disappearing link is moved to what isn't the address of a word");
    struct entry *one = mpgc_take(&links, at);
    one->number = GC_HIDE_POINTER(into) - is_long;
    (void)mpgc_put(&links, one);
    return GC_SUCCESS;
}

// The same under the lock.
#define LOCKED(call) do { \
        mpgc_enter(); \
        mpgc_lock(); \
        int answer_ = (call); \
        mpgc_unlock(); \
        return answer_; \
    } while (0)

int GC_general_register_disappearing_link(void **link, const void *object) { LOCKED(set_link(link, object, false)); }

int GC_register_disappearing_link(void **link)
{
    uintptr_t base;
    size_t words;
    if (!mpgc_find((uintptr_t)link, &base, &words)) mpgc_stop("GC_register_disappearing_link of what lies in no object of the heap");
    LOCKED(set_link(link, (void *)base, false));
}

int GC_unregister_disappearing_link(void **link) { LOCKED(remove_link(link, false)); }

int GC_move_disappearing_link(void **link, void **new_link) { LOCKED(move_link(link, new_link, false)); }

int GC_register_long_link(void **link, const void *object) { LOCKED(set_link(link, object, true)); }

int GC_unregister_long_link(void **link) { LOCKED(remove_link(link, true)); }

int GC_move_long_link(void **link, void **new_link) { LOCKED(move_link(link, new_link, true)); }
