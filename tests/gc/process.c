/* What else a process does beside its heap: it loads objects, with static and thread-local data of their own; it starts programs; the C
 * library takes memory; and errno stays, over requests and collections. The word is the file of loaded.c, built as a shared object. */
#define _GNU_SOURCE
#include <dlfcn.h>
#include <errno.h>
#include <spawn.h>
#include <stdint.h>
#include "check.h"
#include "cycle.h"

#define NOINLINE __attribute__((noinline))
enum { MANY = 100 };
static const char *loaded_file;
static GC_word hidden[MANY];

static NOINLINE void clear_stack(void)
{
    char old[20000];
    explicit_bzero(old, sizeof old);
}

/* The function of this name calls back a place, or NULL. */
typedef void **(*place_of)(void);
static NOINLINE void **place(void *object, const char *name)
{
    place_of tell;
    void *found = dlsym(object, name);
    if (!found) return NULL;
    memcpy(&tell, &found, sizeof tell);
    return tell();
}

static NOINLINE void fill(void **at)
{
    for (int k = 0; k < MANY; k++) {
        at[k] = GC_malloc(48);
        hidden[k] = GC_HIDE_POINTER(at[k]);
    }
}

static NOINLINE int kept_by_a_collection(void)
{
    int kept = 0;
    clear_stack();
    GC_gcollect();
    for (int k = 0; k < MANY; k++) kept += GC_base(GC_REVEAL_POINTER(hidden[k])) != NULL;
    return kept;
}

/* What the object's data names stays while it is loaded, and goes once it isn't. */
static void objects_are_loaded(void)
{
    void *object = dlopen(loaded_file, RTLD_NOW);
    CHECK(object != NULL);
    if (!object) {
        printf("%s\n", dlerror());
        return;
    }
    void *first = place(object, "made_first");
    CHECK(first && GC_base(first) == first && GC_size(first) >= 100);
    first = NULL;
    fill(place(object, "static_place"));
    CHECK(kept_by_a_collection() == MANY);
    memset(place(object, "static_place"), 0, MANY * sizeof(void *));
    fill(place(object, "local_place"));
    CHECK(kept_by_a_collection() == MANY);
    CHECK(dlclose(object) == 0);
    (void)kept_by_a_collection();
    CHECK(kept_by_a_collection() < MANY / 3);
}

/* Programs are started while a cycle marks: what is told of them goes into closed pages. */
static NOINLINE void forks_on_the_same_memory(void)
{
    pid_t *child = (void *)ordinary[100];
    int *status = (void *)ordinary[120];
    *child = vfork();
    if (*child == 0) {
        *(int *)(void *)ordinary[80] = 5; /* in the memory of the program, which waits */
        execlp("true", "true", (char *)NULL);
        _exit(9);
    }
    CHECK(waitpid(*child, status, 0) == *child && *status == 0 && *(int *)(void *)ordinary[80] == 5);
}

static void programs_are_started(void)
{
    char name[] = "true", *words[] = { name, NULL };
    begin();
    CHECK(WEXITSTATUS(system("exit 3")) == 3);
    FILE *file = popen("echo from a child", "r");
    CHECK(file && fgets(ordinary[20], 100, file) == ordinary[20] && strcmp(ordinary[20], "from a child\n") == 0);
    if (file) CHECK(pclose(file) == 0);
    pid_t *child = (void *)ordinary[40];
    int *status = (void *)ordinary[60];
    CHECK(posix_spawnp(child, "true", NULL, NULL, words, environ) == 0);
    CHECK(waitpid(*child, status, 0) == *child && *status == 0);
    forks_on_the_same_memory();
    end();
}

/* The C library's memory is elsewhere, however much of it there is, and of a program at fixed addresses too. */
static void other_memory_is_apart(void)
{
    char *blocks[50];
    int apart = 0;
    begin();
    for (int k = 0; k < 50; k++) {
        blocks[k] = malloc(100000);
        apart += blocks[k] && !GC_is_heap_ptr(blocks[k]) && !GC_is_heap_ptr(blocks[k] + 99999);
        memset(blocks[k], 0x11, 100000);
    }
    CHECK(apart == 50);
    end();
    for (int k = 0; k < 50; k++) free(blocks[k]);
    for (int k = 0; k < COUNT; k++) CHECK(GC_base(ordinary[k]) == ordinary[k]);
}

static void errno_stays(void)
{
    int kept = 0;
    GC_word count = GC_get_gc_no();
    for (int k = 0; k < 20000; k++) {
        errno = 77;
        ordinary[k % COUNT] = GC_malloc(200 + (size_t)k % 3000);
        kept += errno == 77;
    }
    CHECK(kept == 20000 && GC_get_gc_no() > count);
    errno = 77;
    GC_gcollect();
    CHECK(errno == 77 && GC_base(ordinary[3]) && errno == 77);
}

int main(int count, char **words)
{
    loaded_file = count > 1 ? words[1] : "";
    GC_INIT();
    errno_stays();
    objects_are_loaded();
    GC_enable_incremental();
    objects_are_loaded();
    programs_are_started();
    other_memory_is_apart();
    errno_stays();
    return check_ends();
}
