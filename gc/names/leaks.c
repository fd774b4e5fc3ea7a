// Leaks, for a program that frees by itself (GC_find_leak): what isn't marked at a collection's end, and wasn't freed, goes with it, and is
// said behind it. Of what was asked for by a debugging request it is said where.
#include "awaited.h"
#include <stdatomic.h>
#include <stdio.h>
#include <stdlib.h>

enum { MOST = 40, CHAINS = 65536 };  // so many leaks one collection tells of

struct place { struct place *next; GC_hidden_pointer hidden; const char *file; int line; size_t bytes; };
static struct place **places;

struct leak { void *base; size_t bytes; bool is_atomic; struct place *place; };
static struct leak leaks[MOST];
static atomic_uint count;    // which is looked at without the lock
static struct place *left;  // of leaks that aren't told of

// ---- Where objects were asked for ----

static struct place *take(uintptr_t base)
{
    if (!places) return NULL;
    struct place **at = &places[base / GRANULE % CHAINS], *one;
    while ((one = *at) && ~one->hidden != base) at = &one->next;
    if (one) *at = one->next;
    return one;
}

// An object of the program's is freed.
void mpgc_forget_place(uintptr_t base) { mpgc_drop_memory(take(base)); }

static void put(struct place *one)
{
    struct place **at = &places[~one->hidden / GRANULE % CHAINS];
    one->next = *at;
    *at = one;
}

// A debugging request was answered, with the file and the line behind the bytes.
void *mpgc_note_place(void *object, size_t bytes, va_list where)
{
    if (!GC_find_leak || !GC_is_heap_ptr(object)) return object;
    struct place *one = malloc(sizeof *one);
    GC_alloc_lock();
    if (!places) places = mpgc_cleared_memory(CHAINS, sizeof *places);
    mpgc_forget_place((uintptr_t)object);
    mpgc_know_more((uintptr_t)object);
    if (one) *one = (struct place){ .hidden = GC_HIDE_POINTER(object), .file = va_arg(where, const char *), .bytes = bytes };
    if (one) one->line = va_arg(where, int);
    if (one && places) put(one);
    GC_alloc_unlock();
    return object;
}

// ---- Those that nothing reaches ----

static void add_unmarked(void *object, size_t bytes, void *unused)
{
    uintptr_t base = (uintptr_t)object;
    (void)unused;
    if (mpgc_is_marked(base)) return;
    struct place *place = take(base);
    if (count < MOST) {
        leaks[count++] = (struct leak){ object, bytes, mpgc_kind_at(base) == POINTER_FREE, place };
    } else if (place) {
        place->next = left;
        left = place;
    }
}

// All is marked that stays, and no other thread runs.
void mpgc_find_leaks(void)
{
    if (GC_find_leak) GC_enumerate_reachable_objects_inner(add_unmarked, NULL);
}

static void print(const struct leak *one)
{
    const struct place *at = one->place;
    if (at)
        fprintf(stderr, "%p (%s:%d, sz= %zu, %s)\n", one->base, at->file, at->line, at->bytes, one->is_atomic ? "PTRFREE" : "NORMAL");
    else
        fprintf(stderr, "object at %p of appr. %zu bytes (%s)\n", one->base, one->bytes, one->is_atomic ? "atomic" : "composite");
}

// The collection has ended, and other threads run.
void mpgc_tell_leaks(void)
{
    struct leak found[MOST];
    if (count == 0 || mpgc_has_lock()) return;
    GC_alloc_lock();
    unsigned many = count;
    for (unsigned k = 0; k < many; k++) found[k] = leaks[k];
    for (struct place *one; (one = left); mpgc_drop_memory(one)) left = one->next;
    count = 0;
    GC_alloc_unlock();
    if (many > 0) fprintf(stderr, "Found %u leaked objects:\n", many);
    for (unsigned k = 0; k < many; k++) {
        print(&found[k]);
        free(found[k].place);
    }
    if (many > 0 && getenv("GC_ABORT_ON_LEAK")) mpgc_stop("Leaked or smashed objects encountered");
}

static void look_at_exit(void)
{
    if (GC_find_leak) GC_gcollect();
}

void mpgc_look_at_exit(void) { atexit(look_at_exit); }

void GC_set_find_leak(int on) { GC_find_leak = on; }
int GC_get_find_leak(void) { return GC_find_leak; }
