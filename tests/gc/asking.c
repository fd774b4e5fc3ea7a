/* What the program is asked by a collection: whether toggle references stay, whether objects go (disclaim, finalized objects), and for roots of its
 * own; over bdwgc (OTHER) too. */
#define _GNU_SOURCE
#include <stdint.h>
#include "gc.h"
#include <gc/gc_disclaim.h>
#include <gc/gc_mark.h>
#include "check.h"
#include "gone.h"

/* Toggle references: the even ones stay, the odd ones may go. */
static GC_ToggleRefStatus ask(void *object) { return *(uint64_t *)object % 2 ? GC_TOGGLE_REF_WEAK : GC_TOGGLE_REF_STRONG; }
static NOINLINE void make_toggled(void)
{
    for (int k = 0; k < MANY; k++) CHECK(GC_toggleref_add(named(k), k % 2 == 0) == GC_SUCCESS);
}
static NOINLINE void toggles(void)
{
    int strong = 0, weak = 0;
    GC_set_toggleref_func(ask);
    CHECK(GC_get_toggleref_func() == ask);
    make_toggled();
    collect();
    for (int k = 0; k < MANY; k++) {
        strong += k % 2 == 0 && hidden[k] != 0 && *(uint64_t *)GC_REVEAL_POINTER(hidden[k]) == 1000 + (uint64_t)k;
        weak += k % 2 && hidden[k] == 0;
    }
    CHECK(strong == MANY / 2);
    CHECK(weak >= MANY / 2 - 3);
    forget_all();
}

/* Those that might have gone are to stay, once a cycle marks that hasn't come to them yet, and nothing else names them. */
enum { DEEP = 20, FAR = 200000 };
struct far { struct far *next; uint64_t *object; };
static struct far *far;
static int stays;
static GC_ToggleRefStatus ask_late(void *object)
{
    (void)object;
    return stays ? GC_TOGGLE_REF_STRONG : GC_TOGGLE_REF_WEAK;
}
static NOINLINE void make_far(void)
{
    for (int k = 0; k < FAR; k++) {
        struct far *made = GC_malloc(sizeof *made);
        made->object = k < DEEP ? named(k) : NULL;
        if (made->object) CHECK(GC_toggleref_add(made->object, 0) == GC_SUCCESS);
        made->next = far;
        far = made;
    }
}
static NOINLINE void let_stay(void)
{
    for (struct far *at = far; at; at = at->next) at->object = NULL;
    stays = 1;
}
static NOINLINE void toggles_late(void)
{
    GC_set_toggleref_func(ask_late);
    make_far();
    collect();
    GC_start_incremental_collection();
    let_stay();
    clear_stack();
    while (GC_collect_a_little()) continue;
    collect();
    CHECK(count_gone(0, DEEP) == 0);
    stays = 0;
    collect();
    CHECK(count_gone(0, DEEP) >= DEEP - 3);
    far = NULL;
    forget_all();
}

/* Objects that are asked before they go: each is let go the second time, and what it leads to is there. */
static int asked, let_go, wrong;
struct asked { struct asked *to; uint64_t times, number; };
static int disclaim(void *object)
{
    struct asked *one = object;
    if (one->number == 0) return 0; /* it was never used */
    asked++;
    wrong += one->to && one->to->number != one->number + 1;
    if (one->times++ == 0) return 1;
    let_go++;
    one->number = 0;
    one->to = NULL;
    return 0;
}
static NOINLINE void make_asked(int kind)
{
    for (int k = 0; k < MANY; k++) {
        struct asked *one = GC_generic_malloc(sizeof *one, kind), *other = GC_malloc(sizeof *other);
        *other = (struct asked){ NULL, 0, 100 + (uint64_t)k + 1 };
        *one = (struct asked){ other, 0, 100 + (uint64_t)k };
    }
}
static NOINLINE void disclaims(void)
{
    int kind = (int)GC_new_kind(GC_new_free_list(), 0, 1, 1);
    GC_register_disclaim_proc(kind, disclaim, 1);
    make_asked(kind);
    for (int k = 0; k < 6; k++) collect();
    CHECK(wrong == 0);
    CHECK(let_go >= MANY - 3 && let_go <= MANY);
    CHECK(asked >= 2 * let_go);
}
/* One that was moved to other places is asked too, and once. */
enum { MOVED = 815 };
static int moved_asked;
static int note_moved(void *object)
{
    uint64_t *words = object;
    moved_asked += words[0] == MOVED;
    words[0] = 0;
    return 0;
}
static NOINLINE void make_moved(int kind)
{
    for (int k = 0; k < MANY; k++) {
        uint64_t *one = GC_generic_malloc(40, kind);
        one[0] = MOVED;
        (void)GC_realloc(GC_realloc(one, 400), 4000 + 400 * (size_t)k);
    }
}
static NOINLINE void moved(void)
{
    static const GC_word descriptors[] = { 0, 3 * sizeof(GC_word), (GC_word)1 << 63 | GC_DS_BITMAP };
    for (int k = 0; k < 6; k++) {
        int kind = (int)GC_new_kind(GC_new_free_list(), descriptors[k / 2], k / 2 == 0 && k % 2, 1);
        GC_register_disclaim_proc(kind, note_moved, 0);
        moved_asked = 0;
        make_moved(kind);
        for (int j = 0; j < 3; j++) collect();
        CHECK(moved_asked >= MANY - 3 && moved_asked <= MANY);
    }
}

/* Many of them that the program frees aren't asked. */
static NOINLINE void freed(void)
{
    enum { ALL = 100000 };
    int kind = (int)GC_new_kind(GC_new_free_list(), 0, 1, 1);
    GC_register_disclaim_proc(kind, note_moved, 0);
    uint64_t **all = GC_malloc(ALL * sizeof *all);
    moved_asked = 0;
    for (int k = 0; k < ALL; k++) *(all[k] = GC_generic_malloc(40, kind)) = MOVED;
    for (int k = 0; k < ALL; k++) GC_free(all[k * 7919ll % ALL]);
    memset(all, 0, ALL * sizeof *all);
    collect();
    CHECK(moved_asked == 0);
}

/* What one that stays leads to isn't finalized, and its links are there; no link leads to one any more that was asked. Its first word is odd, since
 * bdwgc knows by that that it is used. */
enum { STAYS = 4711 };
struct staying { uint64_t stays; uint64_t *to; };
static int stays_asked, finalized_within;
static void *within[MANY];
static GC_hidden_pointer asked_one[MANY];
static int stay(void *object)
{
    int is_used = ((struct staying *)object)->stays == STAYS;
    stays_asked += is_used;
    return is_used;
}
static void count_within(void *object, void *data)
{
    (void)object;
    ++*(int *)data;
}
static NOINLINE void make_staying(int kind)
{
    for (int k = 0; k < MANY; k++) {
        struct staying *one = GC_generic_malloc(sizeof *one, kind);
        *one = (struct staying){ STAYS, GC_malloc(24) };
        GC_register_finalizer(one->to, count_within, &finalized_within, NULL, NULL);
        within[k] = (void *)GC_HIDE_POINTER(one->to);
        GC_general_register_disappearing_link(&within[k], one->to);
        asked_one[k] = GC_HIDE_POINTER(one);
        GC_register_long_link((void **)&asked_one[k], one);
    }
}
static NOINLINE void stay_asked(void)
{
    int kind = (int)GC_new_kind(GC_new_free_list(), 0, 1, 1), there = 0, linked = 0;
    GC_register_disclaim_proc(kind, stay, 1);
    make_staying(kind);
    for (int k = 0; k < 3; k++) collect();
    for (int k = 0; k < MANY; k++) {
        there += within[k] != NULL;
        linked += asked_one[k] != 0;
        if (within[k]) GC_unregister_disappearing_link(&within[k]);
    }
    CHECK(stays_asked >= MANY - 3);
    CHECK(there == MANY && finalized_within == 0);
    CHECK(linked <= 3);
}

static int finalized, bad_data;
static void count_finalized(void *object, void *data)
{
    finalized += *(uint64_t *)object == 77;
    bad_data += data != &finalized;
}
static struct GC_finalizer_closure closure = { count_finalized, &finalized };
static NOINLINE void make_finalized(void)
{
    for (int k = 0; k < MANY; k++) *(uint64_t *)GC_finalized_malloc(24, &closure) = 77;
}
static NOINLINE void finalized_ones(void)
{
    GC_init_finalized_malloc();
    make_finalized();
    for (int k = 0; k < 3; k++) collect();
    CHECK(finalized >= MANY - 3 && finalized <= MANY && bad_data == 0);
}

/* Roots in memory of malloc, which a function of the program pushes. */
static uint64_t **elsewhere;
static GC_push_other_roots_proc others;
static void push_elsewhere(void)
{
    GC_push_all(elsewhere, elsewhere + MANY / 2);
    GC_push_all_eager(elsewhere + MANY / 2, elsewhere + MANY);
    if (others) others();
}
static NOINLINE void fill_elsewhere(void)
{
    for (int k = 0; k < MANY; k++) elsewhere[k] = named(k);
}
static NOINLINE void other_roots(void)
{
    elsewhere = malloc(MANY * sizeof *elsewhere);
    others = GC_get_push_other_roots();
    GC_set_push_other_roots(push_elsewhere);
    CHECK(GC_get_push_other_roots() == push_elsewhere);
    fill_elsewhere();
    collect();
    CHECK(count_gone(0, MANY) == 0 && elsewhere[3][0] == 1003);
    GC_set_push_other_roots(others);
    collect();
    CHECK(count_gone(0, MANY) >= MANY - 3);
    forget_all();
}

#ifndef OTHER
/* The function collects once: what it drops before, and what goes meanwhile, moves none of those that stay. */
static int has_collected;
static GC_ToggleRefStatus ask_and_collect(void *object)
{
    uint64_t number = *(uint64_t *)object - 1000;
    if (number == MANY / 2 && !has_collected++) GC_gcollect();
    return number % 4 == 0 ? GC_TOGGLE_REF_DROP : number % 4 == 1 ? GC_TOGGLE_REF_WEAK : GC_TOGGLE_REF_STRONG;
}
static NOINLINE void toggles_that_collect(void)
{
    int strong = 0;
    GC_set_toggleref_func(ask_and_collect);
    make_toggled();
    collect();
    for (int k = 0; k < MANY; k++) strong += k % 4 >= 2 && hidden[k] != 0 && *(uint64_t *)GC_REVEAL_POINTER(hidden[k]) == 1000 + (uint64_t)k;
    CHECK(has_collected && strong == MANY / 2);
    forget_all();
}

/* A function that is asked makes more of its kind, so that what is known of them is moved: each object is asked for once. */
static int kind_of_makers;
static unsigned char times_asked[MANY];
static int make_more(void *object)
{
    const uint64_t *number = object;
    if (*number == 0) return 0;
    times_asked[*number - 1]++;
    for (int k = 0; k < MANY; k++) GC_generic_malloc(sizeof *number, kind_of_makers);
    return 0;
}
static NOINLINE void make_makers(void)
{
    for (uint64_t k = 1; k <= MANY; k++) *(uint64_t *)GC_generic_malloc(sizeof k, kind_of_makers) = k;
}
static NOINLINE void makers(void)
{
    int often = 0;
    kind_of_makers = (int)GC_new_kind(GC_new_free_list(), 0, 0, 1);
    GC_register_disclaim_proc(kind_of_makers, make_more, 0);
    make_makers();
    clear_stack();
    collect();
    collect();
    for (int k = 0; k < MANY; k++) often += times_asked[k] > 1;
    CHECK(often == 0);
}

/* One that collects, so that the others are asked meanwhile, and the first goes: each is asked until it says so, and goes once. */
enum { FIRST, ONE, OTHER_ONE, COLLECTOR, ALL_ASKED };
static int kind_of_collectors, times[ALL_ASKED], gone[ALL_ASKED];
static int go_later(void *object)
{
    const uint64_t *number = object;
    if (*number == 0) return 0;
    int k = (int)*number - 1, goes = times[k]++ >= (k == COLLECTOR ? 0 : k == FIRST ? 1 : 2);
    if (k == COLLECTOR) GC_gcollect();
    gone[k] += goes;
    return !goes;
}
static NOINLINE void make_collector(void)
{
    for (uint64_t k = 1; k <= ALL_ASKED; k++) *(uint64_t *)GC_generic_malloc(sizeof k, kind_of_collectors) = k;
}
static NOINLINE void collector(void)
{
    kind_of_collectors = (int)GC_new_kind(GC_new_free_list(), 0, 0, 1);
    GC_register_disclaim_proc(kind_of_collectors, go_later, 0);
    make_collector();
    for (int k = 0; k < 6; k++) collect();
    CHECK(times[COLLECTOR] == 1);
    for (int k = 0; k < ALL_ASKED; k++) CHECK(gone[k] == 1);
}
#endif

int main(void)
{
    GC_INIT();
    if (getenv("INCREMENTAL")) GC_enable_incremental();
    toggles();
    toggles_late();
    disclaims();
    moved();
    freed();
    stay_asked();
    finalized_ones();
    other_roots();
#ifndef OTHER
    toggles_that_collect();
    makers();
    collector();
#endif
    return check_ends();
}
