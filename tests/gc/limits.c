/* Requests at the ends of what the heap can do: too large, without room, in a heap that the program made small, with a function of its own
 * for memory that runs out; and what is counted meanwhile. Each in a child of its own, since the size of a heap is set before the first
 * request. Over libmpgc alone: its limits are not those of bdwgc. */
#define _GNU_SOURCE
#define GC_OOM_FUNC_RETURNS_ALIAS
#include <errno.h>
#include <pthread.h>
#include <sched.h>
#include <setjmp.h>
#include <stdbool.h>
#include <stdint.h>
#include <sys/mman.h>
#include <sys/resource.h>
#define GC_REQUIRE_WCSDUP
#include "gc.h"
#include "check.h"
#include "watch.h"

enum { MEGABYTE = 1 << 20 };
static char reserve[64];
static size_t wanted;

static void *from_reserve(size_t bytes)
{
    wanted = bytes;
    return reserve;
}

/* What the program's function answers is handed on as it is, whatever was asked for. */
static int hands_on_a_reserve(void)
{
    volatile size_t huge = SIZE_MAX;
    GC_set_warn_proc(GC_ignore_warn_proc);
    GC_set_oom_fn(from_reserve);
    GC_word kept = GC_get_non_gc_bytes();
    if ((char *)GC_malloc_uncollectable(huge) != reserve || wanted != huge) return 1;
    if ((char *)GC_malloc_atomic_uncollectable(huge - 7) != reserve || wanted != huge - 7) return 2;
    if ((char *)GC_realloc(GC_malloc_atomic(40), huge) != reserve) return 3;
    if ((char *)GC_malloc_ignore_off_page(huge / 4) != reserve) return 4;
    if ((char *)GC_memalign(65536, huge / 4) != reserve) return 6;
    return GC_get_non_gc_bytes() == kept ? 0 : 5;
}

/* A request that had no room is not counted, and the old object of a realloc stays. */
static int counts_what_was_given(void)
{
    volatile size_t huge = SIZE_MAX / 2;
    GC_set_warn_proc(GC_ignore_warn_proc);
    char *old = GC_malloc(100);
    strcpy(old, "still here");
    size_t total = GC_get_total_bytes();
    for (int k = 0; k < 10; k++)
        if (GC_malloc(huge) || GC_realloc(old, huge) || GC_memalign(4096, huge) || GC_strndup(old, 3) == NULL) return 1;
    return strcmp(old, "still here") == 0 && GC_get_total_bytes() - total < 1000 ? 0 : 2;
}

/* Where memory runs out in a registration, the program's function may jump out of it: the lock isn't held by anyone then. */
static jmp_buf out;
static void *jump_out(size_t bytes)
{
    (void)bytes;
    longjmp(out, 1);
}
static void finalize(void *object, void *data)
{
    (void)object;
    (void)data;
}
static void *make_one(void *data)
{
    return GC_malloc_atomic(16) ? data : NULL;
}
static int may_jump_out_of_a_registration(void)
{
    enum { MOST = 60000 };
    static void *all[MOST];
    static int made;
    void *answer = NULL;
    pthread_t thread;
    GC_set_max_heap_size(2 * MEGABYTE);
    GC_set_warn_proc(GC_ignore_warn_proc);
    GC_allow_register_threads();
    errno = 0;
    while (made < MOST && (all[made] = GC_malloc(64))) made++;
    if (made == MOST || errno != ENOMEM) return 1;
    GC_set_oom_fn(jump_out);
    if (setjmp(out) == 0) {
        for (int k = 0; k < made; k++) GC_register_finalizer(all[k], finalize, NULL, NULL, NULL);
        return 2;
    }
    memset(all, 0, sizeof all);
    if (pthread_create(&thread, NULL, make_one, &answer) != 0 || pthread_join(thread, &answer) != 0) return 3;
    return answer == &answer ? 0 : 4;
}

/* What no heap has: the largest numbers, and products of them that wrap to small ones. */
extern void *GC_calloc_explicitly_typed(size_t count, size_t bytes, GC_word type);
static int refuses_what_cannot_be(void)
{
    static const size_t numbers[] = { SIZE_MAX, SIZE_MAX - 1, SIZE_MAX - 7, SIZE_MAX - 15, SIZE_MAX / 2 + 1, SIZE_MAX / 8 + 2 };
    void *result = reserve;
    GC_set_warn_proc(GC_ignore_warn_proc);
    for (size_t k = 0; k < sizeof numbers / sizeof *numbers; k++) {
        volatile size_t huge = numbers[k];
        if (GC_malloc(huge) || GC_malloc_atomic(huge) || GC_malloc_uncollectable(huge) || GC_malloc_atomic_uncollectable(huge)) return 1;
        if (GC_malloc_ignore_off_page(huge) || GC_malloc_atomic_ignore_off_page(huge) || GC_malloc_stubborn(huge)) return 2;
        if (GC_memalign(16, huge) || GC_memalign(4096, huge) || GC_memalign(MEGABYTE, huge) || GC_memalign(huge, 10)) return 3;
        if (GC_realloc(NULL, huge) || GC_posix_memalign(&result, 64, huge) != ENOMEM || result != reserve) return 4;
        if (GC_calloc_explicitly_typed(huge, 16, 0) || GC_calloc_explicitly_typed(16, huge, 0)) return 5;
    }
    if (GC_calloc_explicitly_typed((size_t)1 << 62, 4, 0) || GC_calloc_explicitly_typed((size_t)1 << 61, 24, 0)) return 6;
    return GC_calloc_explicitly_typed(3, 8, 0) ? 0 : 7;
}

/* A text that is too long leaves ENOMEM, as its kin of the C library do. */
static int long_texts_leave_errno(void)
{
    static char text[MEGABYTE];
    static wchar_t wide[MEGABYTE / 4];
    GC_set_max_heap_size(MEGABYTE / 2);
    GC_set_warn_proc(GC_ignore_warn_proc);
    memset(text, 'x', sizeof text - 1);
    for (size_t k = 0; k < MEGABYTE / 4 - 1; k++) wide[k] = L'x';
    errno = 0;
    if (GC_strdup(text) || errno != ENOMEM) return 1;
    errno = 0;
    if (GC_strndup(text, sizeof text) || errno != ENOMEM) return 2;
    errno = 0;
    return !GC_wcsdup(wide) && errno == ENOMEM ? 0 : 3;
}

/* The program's function is warned of each refusal, also where another one was told of earlier ones. */
static int warnings;
static void count_warning(char *format, GC_word number)
{
    (void)format;
    (void)number;
    warnings++;
}
static int warns_each_time(void)
{
    volatile size_t huge = SIZE_MAX / 4;
    GC_set_warn_proc(GC_ignore_warn_proc);
    if (GC_malloc(huge)) return 1;
    GC_set_warn_proc(count_warning);
    if (GC_malloc(huge) || GC_malloc_atomic(huge)) return 2;
    return warnings == 2 ? 0 : 3;
}

/* Each size from one word to 64 megabytes, a byte past the end pointing into it; and no more than the program lets the heap have. */
static int large_requests(void)
{
    const size_t most = (size_t)64 * MEGABYTE - 1;
    GC_set_max_heap_size(100 * MEGABYTE);
    GC_set_warn_proc(GC_ignore_warn_proc);
    for (size_t bytes = 1; bytes <= most; bytes = bytes * 3 / 2 + 1) {
        char *p = GC_malloc(bytes);
        if (!p || GC_size(p) < bytes || GC_base(p + bytes) != p) return 1;
        memset(p, 1, bytes);
        GC_free(p);
    }
    return GC_malloc(most) && !GC_malloc(2 * most) && !GC_malloc_atomic(2 * most) ? 0 : 2;
}

/* The process may have a gigabyte of addresses: the heap is smaller then. */
static int in_little_space(void)
{
    struct rlimit limit = { (rlim_t)1 << 30, (rlim_t)1 << 30 };
    if (setrlimit(RLIMIT_AS, &limit) != 0) return 1;
    char *p = GC_malloc(10 * MEGABYTE);
    return p && GC_size(p) >= 10 * MEGABYTE ? 0 : 2;
}

/* Not all of them are the heap's: there is room for what the program asks others for, and its threads. */
static int leaves_some_space(void)
{
    const rlim_t bytes = 1200 * (rlim_t)MEGABYTE;
    if (setrlimit(RLIMIT_AS, &(struct rlimit){ bytes, bytes }) != 0) return 1;
    if (!GC_malloc_atomic(500 * MEGABYTE)) return 2;
    return mmap(NULL, bytes / 4, PROT_READ, MAP_PRIVATE | MAP_ANONYMOUS, -1, 0) != MAP_FAILED ? 0 : 3;
}

/* What is refused isn't cleared first: it takes neither memory nor time. */
static long resident(void)
{
    struct rusage used;
    getrusage(RUSAGE_SELF, &used);
    return used.ru_maxrss;
}
static int refuses_at_once(void)
{
    const size_t huge = (size_t)1500 * MEGABYTE;
    GC_set_max_heap_size(64 * MEGABYTE);
    GC_set_warn_proc(GC_ignore_warn_proc);
    if (!GC_malloc(MEGABYTE)) return 1;
    long before = resident();
    if (GC_malloc(huge) || GC_malloc_atomic(huge) || GC_memalign(1 << 16, huge)) return 2;
    return resident() - before < 100 * 1024 ? 0 : 3;
}

/* The program lowers what it may have itself, when the heap is there: the heap grows no further, by large objects or small ones, until it may
 * again. */
static size_t list_until_refused(void)
{
    void **list = NULL, **next;
    size_t bytes = 0;
    while (bytes < 400 * (size_t)MEGABYTE && (next = GC_malloc(1000))) {
        next[0] = list;
        list = next;
        bytes += 1000;
    }
    return bytes;
}
static int is_held_to(int which)
{
    struct rlimit limit;
    GC_set_warn_proc(GC_ignore_warn_proc);
    if (!GC_malloc(MEGABYTE) || getrlimit(which, &limit) != 0) return 1;
    struct rlimit lower = { 200 * (rlim_t)MEGABYTE, limit.rlim_max };
    long before = resident();
    if (setrlimit(which, &lower) != 0) return 2;
    if (GC_malloc(300 * MEGABYTE) || resident() - before > 100 * 1024) return 3;
    if (list_until_refused() > 200 * (size_t)MEGABYTE) return 4;
    return setrlimit(which, &limit) == 0 && GC_malloc(300 * MEGABYTE) ? 0 : 5;
}
static int is_held_to_addresses(void) { return is_held_to(RLIMIT_AS); }
static int is_held_to_data(void) { return is_held_to(RLIMIT_DATA); }

/* All memory is locked, where that is allowed: not that of the largest heap at once. */
static int locks_what_it_touches(void)
{
    const rlim_t bytes = 1200 * (rlim_t)MEGABYTE;
    if (setrlimit(RLIMIT_AS, &(struct rlimit){ bytes, bytes }) != 0) return 1;
    char *p = GC_malloc(MEGABYTE);
    if (!p || mlockall(MCL_CURRENT | MCL_FUTURE) != 0) return 0;
    memset(p, 1, MEGABYTE);
    long all = 0, resident = 0;
    FILE *file = fopen("/proc/self/statm", "r");
    if (file && fscanf(file, "%ld %ld", &all, &resident) != 2) return 2;
    return resident < 200 * (long)(MEGABYTE / 4096) ? 0 : 3;
}

/* A heap without a limit of the program's, however that is said. */
static int takes_two_megabytes(void)
{
    void **list = NULL;
    for (int k = 0; k < 2000; k++) {
        void **next = GC_malloc(1000);
        if (!next) return 1;
        next[0] = list;
        list = next;
    }
    return 0;
}
static int has_no_limit(void)
{
    GC_set_max_heap_size((GC_word)-1);
    return takes_two_megabytes();
}
static int has_no_limit_either(void)
{
    setenv("GC_MAXIMUM_HEAP_SIZE", "99999999999G", 1);
    return takes_two_megabytes();
}

/* What is no size is left out, as by bdwgc. */
static int has_no_limit_that_is_no_size(void)
{
    setenv("GC_MAXIMUM_HEAP_SIZE", getenv("NO_SIZE"), 1);
    GC_set_warn_proc(GC_ignore_warn_proc);
    return takes_two_megabytes();
}
static void check_no_sizes(void)
{
    static const char *const texts[] = { "1e9", "5T", "10MB", "0x10", "64M ", "k" };
    for (size_t k = 0; k < sizeof texts / sizeof *texts; k++) {
        setenv("NO_SIZE", texts[k], 1);
        check_that(texts[k], status_of(has_no_limit_that_is_no_size) == 0);
    }
}

static int cannot_grow_so_far(void)
{
    GC_INIT();
    size_t heap = GC_get_heap_size();
    return !GC_expand_hp(SIZE_MAX) && !GC_expand_hp(SIZE_MAX - 4000) && !GC_expand_hp((size_t)1 << 40) && GC_get_heap_size() == heap ? 0 : 1;
}

/* What the program asks for beforehand is filled without a collection. */
static int fills_what_it_asked_for(void)
{
    GC_INIT();
    if (!GC_expand_hp(64 * MEGABYTE)) return 1;
    for (size_t bytes = 0; bytes < 48 * MEGABYTE; bytes += 1000) GC_malloc(1000);
    return GC_get_gc_no() == 0 ? 0 : 2;
}
static int fills_its_first_heap(void)
{
    setenv("GC_INITIAL_HEAP_SIZE", "64M", 1);
    for (size_t bytes = 0; bytes < 48 * MEGABYTE; bytes += 1000) GC_malloc(1000);
    if (GC_get_gc_no() != 0) return 1;
    for (size_t bytes = 0; bytes < 48 * MEGABYTE; bytes += 1000) GC_malloc(1000);
    return GC_get_gc_no() > 0 ? 0 : 2;
}

/* In a heap of a megabyte, garbage of one size makes room for objects of every other, and for large ones. */
static int room_is_for_all_sizes(void)
{
    static const size_t sizes[] = { 1000, 24, 300, 60, 2000, 100, 8, 40000, 500, 16, 200000, 30 };
    GC_set_warn_proc(GC_ignore_warn_proc);
    for (int round = 0; round < 3; round++)
        for (size_t k = 0; k < sizeof sizes / sizeof *sizes; k++)
            for (size_t bytes = 0; bytes < 2 * MEGABYTE; bytes += sizes[k] + 16)
                if (!(k % 2 ? GC_malloc(sizes[k]) : GC_malloc_atomic(sizes[k]))) return (int)k + 1;
    return GC_get_heap_size() <= MEGABYTE ? 0 : 100;
}
static int is_small(void)
{
    GC_set_max_heap_size(MEGABYTE);
    return room_is_for_all_sizes();
}
static int is_small_in_steps(void)
{
    GC_set_max_heap_size(MEGABYTE);
    GC_enable_incremental();
    return room_is_for_all_sizes();
}

/* Collections are off: then only as much as fits, and more once they are on again. */
static int is_off_and_on(void)
{
    GC_set_max_heap_size(MEGABYTE);
    GC_set_warn_proc(GC_ignore_warn_proc);
    GC_disable();
    size_t bytes = 0;
    while (bytes < 4 * MEGABYTE && GC_malloc(1000)) bytes += 1000;
    if (bytes < MEGABYTE / 2 || bytes > MEGABYTE || GC_get_gc_no() != 0) return 1;
    GC_enable();
    return GC_malloc(1000) && GC_get_gc_no() > 0 ? 0 : 2;
}

/* No collection begins by itself: then what has no room is refused, and the program's own collection makes room. */
static int is_off_by_itself(void)
{
    GC_set_max_heap_size(MEGABYTE);
    GC_set_warn_proc(GC_ignore_warn_proc);
    GC_set_disable_automatic_collection(1);
    size_t bytes = 0;
    while (bytes < 4 * MEGABYTE && GC_malloc(1000)) bytes += 1000;
    if (bytes < MEGABYTE / 2 || bytes > MEGABYTE || GC_get_gc_no() != 0) return 1;
    GC_gcollect();
    return GC_malloc(1000) && GC_get_gc_no() == 1 ? 0 : 2;
}

/* Aligned memory of a page or more begins an object, so that it can be freed and grown. */
static int pages_are_objects(void)
{
    for (size_t bytes = 1; bytes < 20000; bytes = bytes * 2 + 1) {
        char *p = GC_memalign(4096, bytes), *q = GC_memalign(64, bytes + 4096);
        if ((uintptr_t)p % 4096 != 0 || GC_base(p) != p || GC_size(p) < bytes || GC_base(q) != q) return 1;
        p = GC_realloc(p, bytes + 5000);
        if (!p) return 2;
        GC_free(p);
        GC_free(q);
    }
    char *p = GC_memalign(65536, 10), *q = GC_memalign(3000, 5000);
    if ((uintptr_t)q % 3000 != 0 || GC_base(q + 4999) != GC_base(q)) return 4;
    return (uintptr_t)p % 65536 == 0 && GC_base(p) != NULL ? 0 : 3;
}

/* The stack grows past what was its end when the heap was opened. */
static int recurse(int depth)
{
    volatile char frame[1000];
    frame[0] = (char)depth;
    if (depth == 0) GC_gcollect();
    return (depth == 0 ? 0 : recurse(depth - 1)) + frame[0] * 0;
}
static int stack_may_grow(void)
{
    struct rlimit limit;
    getrlimit(RLIMIT_STACK, &limit);
    rlim_t most = limit.rlim_max;
    limit.rlim_cur = 1 << 20;
    setrlimit(RLIMIT_STACK, &limit);
    GC_INIT();
    limit.rlim_cur = most == RLIM_INFINITY || most > 8 << 20 ? 8 << 20 : most;
    setrlimit(RLIMIT_STACK, &limit);
    return recurse(4000);
}

/* .. while another thread collects, and the deepest frame alone names an object. */
static _Atomic int is_deep;
static void *collect_when_deep(void *data)
{
    while (!is_deep) sched_yield();
    for (int k = 0; k < 3; k++) GC_gcollect();
    is_deep = 0;
    return data;
}
static int recurse_beside(int depth)
{
    volatile char frame[1000];
    frame[0] = 0;
    if (depth > 0) return recurse_beside(depth - 1) + frame[0];
    char *volatile made = GC_malloc(16);
    made[0] = 9;
    is_deep = 1;
    while (is_deep) sched_yield();
    for (int k = 0; k < 20000; k++) memset(GC_malloc(16), 7, 16);
    return made[0] == 9 ? 0 : 1;
}
static int stack_may_grow_beside_others(void)
{
    struct rlimit limit;
    pthread_t thread;
    getrlimit(RLIMIT_STACK, &limit);
    rlim_t most = limit.rlim_max;
    limit.rlim_cur = 1 << 20;
    setrlimit(RLIMIT_STACK, &limit);
    GC_INIT();
    limit.rlim_cur = most == RLIM_INFINITY || most > 8 << 20 ? 8 << 20 : most;
    setrlimit(RLIMIT_STACK, &limit);
    if (pthread_create(&thread, NULL, collect_when_deep, NULL) != 0) return 2;
    int status = recurse_beside(4000);
    return pthread_join(thread, NULL) == 0 ? status : 3;
}

/* Of objects that one array names, far more than the core's mark stack has entries. Between two collections a third of twice what lives is
 * asked for, by the usual divisor, so there are as many at most, whether the program writes to all of them or not. */
static int collections_by_what_lives(bool writes)
{
    enum { OBJECTS = 100000, OBJECT = 32, LIVES = OBJECTS * (OBJECT + sizeof(void *)), ASKED = 40 * MEGABYTE };
    GC_set_free_space_divisor(3);
    void ***wide = GC_malloc(OBJECTS * sizeof *wide);
    for (size_t k = 0; k < OBJECTS; k++) wide[k] = GC_malloc(OBJECT);
    GC_gcollect();
    GC_word before = GC_get_gc_no();
    for (uint64_t k = 0; k < ASKED / OBJECT; k++) {
        void *made = GC_malloc(OBJECT);
        if (writes) *wide[k * 7919 % OBJECTS] = k % 2 ? NULL : made;
    }
    return GC_get_gc_no() - before <= ASKED / (LIVES * 2 / 3) + 1 ? 0 : 1;
}

static int is_paced_by_all_that_lives(void) { return collections_by_what_lives(false); }

static int is_paced_in_steps_too(void)
{
    GC_enable_incremental();
    return collections_by_what_lives(false);
}

static int is_paced_beside_writes(void)
{
    GC_enable_incremental();
    return collections_by_what_lives(true);
}

int main(void)
{
    CHECK(status_of(hands_on_a_reserve) == 0);
    CHECK(status_of(counts_what_was_given) == 0);
    CHECK(status_of(refuses_what_cannot_be) == 0);
    CHECK(ends_well(may_jump_out_of_a_registration, 60));
    CHECK(status_of(long_texts_leave_errno) == 0);
    CHECK(status_of(warns_each_time) == 0);
    CHECK(status_of(large_requests) == 0);
    CHECK(status_of(in_little_space) == 0);
    CHECK(status_of(leaves_some_space) == 0);
    CHECK(status_of(refuses_at_once) == 0);
    CHECK(status_of(is_held_to_addresses) == 0);
    CHECK(status_of(is_held_to_data) == 0);
    CHECK(status_of(locks_what_it_touches) == 0);
    CHECK(status_of(has_no_limit) == 0);
    CHECK(status_of(has_no_limit_either) == 0);
    check_no_sizes();
    CHECK(status_of(cannot_grow_so_far) == 0);
    CHECK(status_of(fills_what_it_asked_for) == 0);
    CHECK(status_of(fills_its_first_heap) == 0);
    CHECK(status_of(is_small) == 0);
    CHECK(status_of(is_small_in_steps) == 0);
    CHECK(status_of(is_off_and_on) == 0);
    CHECK(status_of(is_off_by_itself) == 0);
    CHECK(status_of(pages_are_objects) == 0);
    CHECK(status_of(stack_may_grow) == 0);
    CHECK(status_of(stack_may_grow_beside_others) == 0);
    CHECK(status_of(is_paced_by_all_that_lives) == 0);
    CHECK(status_of(is_paced_in_steps_too) == 0);
    CHECK(status_of(is_paced_beside_writes) == 0);
    return check_ends();
}
