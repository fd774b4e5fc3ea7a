/* Requests by a program's own lists of free objects (gc_inline.h). The same source runs over bdwgc where that is installed. */
#include "gc.h"
#include <gc/gc_inline.h>
#include <gc/gc_mark.h>
#include <signal.h>
#include <stdint.h>
#include "check.h"

#define OBJECTS 20000

static void *lists[GC_TINY_FREELISTS], *unread[GC_TINY_FREELISTS], *counted[GC_TINY_FREELISTS];
static int direct; /* requests that were made without a list */

static void *made(size_t granules)
{
    direct++;
    return GC_malloc_kind(granules * GC_GRANULE_BYTES, GC_I_NORMAL);
}

/* Lists of pairs, as a program in Lisp makes them: each is there, whole, behind collections beside garbage. */
static void pairs(void)
{
    uintptr_t **list = NULL, sum = 0, length = 0;
    int is_clear = 1;
    for (uintptr_t k = 0; k < OBJECTS; k++) {
        uintptr_t **pair, *word;
        GC_MALLOC_WORDS(word, 3, lists);
        is_clear = is_clear && word && word[1] == 0 && word[2] == 0 && word[3] == 0;
        word[0] = k;
        GC_CONS(pair, word, list, lists);
        list = pair;
        for (int n = 0; n < 3; n++) {
            void *garbage;
            GC_CONS(garbage, k, word, lists);
        }
        if (k % 4000 == 0) GC_gcollect();
    }
    CHECK(is_clear);
    GC_gcollect();
    for (uintptr_t **pair = list; pair; pair = (uintptr_t **)pair[1]) {
        sum += pair[0][0];
        length++;
    }
    CHECK(length == OBJECTS && sum == (uintptr_t)OBJECTS * (OBJECTS - 1) / 2);
}

/* Objects that aren't read, of each size: no two overlap. No collection comes, which would take the rest of a list. */
static void pointer_free(void)
{
    static unsigned char *objects[1000];
    int is_whole = 1, is_free = 1;
    GC_disable();
    for (int k = 0; k < 1000; k++) {
        size_t words = (size_t)k % 60; /* past the lists too */
        GC_MALLOC_ATOMIC_WORDS(objects[k], words, unread);
        is_free = is_free && GC_get_kind_and_size(GC_base(objects[k]), NULL) == GC_I_PTRFREE;
        memset(objects[k], k, words * sizeof(void *));
    }
    memset(unread, 0, sizeof unread);
    GC_enable();
    GC_gcollect();
    for (int k = 0; k < 1000; k++)
        for (size_t byte = 0; byte < (size_t)k % 60 * sizeof(void *); byte++) is_whole = is_whole && objects[k][byte] == (unsigned char)k;
    CHECK(is_free);
    CHECK(is_whole);
}

/* The first requests of a size are made without a list. */
static void counts(void)
{
    for (int k = 0; k < GC_TINY_FREELISTS; k++) counted[k] = (void *)1;
    for (int k = 0; k < 30; k++) {
        void *object;
        GC_FAST_MALLOC_GRANS(object, (size_t)2, counted, 20, GC_I_NORMAL, made(2), (void)0);
        CHECK(object && GC_size(object) >= 32);
    }
    CHECK(direct == 7); /* 1, 4, 7 .. 19 are counts, and 22 is more than 20 */
    void *large;
    GC_FAST_MALLOC_GRANS(large, (size_t)GC_TINY_FREELISTS, counted, 20, GC_I_NORMAL, made(GC_TINY_FREELISTS), (void)0);
    CHECK(large && direct == 8);
}

int main(void)
{
    GC_set_all_interior_pointers(0); /* else bdwgc doesn't read the last word of such an object */
    GC_INIT();
    if (getenv("INCREMENTAL")) GC_enable_incremental();
    pairs();
    pointer_free();
    counts();
    return check_ends();
}
