// The C library's sorting, which moves elements through room that it asks malloc for: so while it writes them back a thread may be stopped
// that has some of the program's pointers nowhere else. Where it may be, and words of the elements point into the heap, the room is an
// object of the heap, and read with the elements.
//
// As with that of the C library equal elements stay in their order. What is behind each step: of a run that is merged all elements stand
// in the array until all stand in the room, and then there until they are copied back.
//
// A program that is linked statically has these functions in place of the C library's: there the others are sorted here too, in room of
// malloc, or, where it has none, element by element. They are weak, since such a program may have the C library's none the less, which come
// with what sorts inside of it, as getaddrinfo does: then arrays are sorted by these.
#include "../front.h"
#include <dlfcn.h>
#include <stdatomic.h>
#include <stdlib.h>
#include <string.h>

#define WEAK __attribute__((weak))

struct sort {
    size_t size;
    __compar_d_fn_t compare;
    void *data;
    char *room;  // for all elements
};

// The two halves are in order, and are merged: those that are left of the second one when the first is over stand where they are to be.
static void merge(const struct sort *sort, char *first, char *second, char *end)
{
    char *from = first, *other = second, *to = sort->room;
    while (from < second && other < end) {
        char **least = sort->compare(from, other, sort->data) <= 0 ? &from : &other;
        memcpy(to, *least, sort->size);
        *least += sort->size;
        to += sort->size;
    }
    memcpy(to, from, (size_t)(second - from));
    memcpy(first, sort->room, (size_t)(to - sort->room) + (size_t)(second - from));
}

static void sort_run(const struct sort *sort, char *first, size_t count)
{
    if (count < 2) return;
    char *second = first + count / 2 * sort->size;
    sort_run(sort, first, count / 2);
    sort_run(sort, second, count - count / 2);
    merge(sort, first, second, first + count * sort->size);
}

static bool points(const void *elements, size_t bytes)
{
    const void *const *word = elements, *const *end = word + bytes / WORD;
    while (word < end && !GC_is_heap_ptr(*word)) word++;
    return word < end;
}

// Room of the heap for the elements, where they need some; or null. Of few the C library's lies on the stack, with some of its own.
static void *room_for(const void *elements, size_t count, size_t size)
{
    enum { FEW = 512 };  // bytes
    size_t bytes;
    if (!mpgc_may_be_stopped() || (uintptr_t)elements % WORD != 0 || size % WORD != 0) return NULL;
    if (__builtin_mul_overflow(count, size, &bytes) || bytes < FEW || !points(elements, bytes)) return NULL;
    return GC_malloc(bytes);
}

// Without room each element goes down among those before it that are in order.
static void swap(char *one, char *other, size_t size)
{
    for (size_t k = 0; k < size; k++) {
        char kept = one[k];
        one[k] = other[k];
        other[k] = kept;
    }
}
static void go_down(const struct sort *sort, char *first, char *at)
{
    for (; at > first && sort->compare(at - sort->size, at, sort->data) > 0; at -= sort->size) swap(at - sort->size, at, sort->size);
}

static void sort_here(struct sort *sort, char *elements, size_t count)
{
    size_t bytes;
    sort->room = __builtin_mul_overflow(count, sort->size, &bytes) ? NULL : malloc(bytes);
    if (sort->room) sort_run(sort, elements, count);
    for (size_t k = 1; !sort->room && k < count; k++) go_down(sort, elements, elements + k * sort->size);
    free(sort->room);
}

typedef void sorter(void *elements, size_t count, size_t size, __compar_d_fn_t compare, void *data);
static sorter *next_sorter(void)
{
    static atomic_uintptr_t kept;
    uintptr_t found = atomic_load_explicit(&kept, memory_order_relaxed);
    if (!found) atomic_store_explicit(&kept, found = (uintptr_t)dlsym(RTLD_NEXT, "qsort_r"), memory_order_relaxed);
    return (sorter *)found;
}

WEAK SHOWN void qsort_r(void *elements, size_t count, size_t size, __compar_d_fn_t compare, void *data)
{
    sorter *next = next_sorter();
    struct sort sort = { size, compare, data, room_for(elements, count, size) };
    if (sort.room)
        sort_run(&sort, elements, count);
    else if (next)
        next(elements, count, size, compare, data);
    else
        sort_here(&sort, elements, count);
}

static int compare_two(const void *one, const void *other, void *compare) { return (*(__compar_fn_t *)compare)(one, other); }

WEAK SHOWN void qsort(void *elements, size_t count, size_t size, __compar_fn_t compare) { qsort_r(elements, count, size, compare_two, &compare); }
