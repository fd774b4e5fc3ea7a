/* A mapping that lies just below the first thread's local data when the library starts, and is gone when roots are read. */
#define _GNU_SOURCE
#include <dlfcn.h>
#include <stdint.h>
#include <sys/mman.h>
#include "gc.h"
#include "check.h"

static char *page;
static void *mapped;

/* Before any library's constructor. Where the data has the page itself, or something else, nothing is mapped. */
static void map_below(void)
{
    enum { BYTES = 4096 };
    void (*tell)(size_t *bytes, size_t *alignment), *found = dlsym(RTLD_DEFAULT, "_dl_get_tls_static_info");
    size_t bytes = 0, alignment;
    memcpy(&tell, &found, sizeof tell);
    if (found) tell(&bytes, &alignment);
    page = (char *)(((uintptr_t)__builtin_thread_pointer() - bytes) & ~(uintptr_t)(BYTES - 1));
    mapped = mmap(page, BYTES, PROT_READ | PROT_WRITE, MAP_PRIVATE | MAP_ANONYMOUS | MAP_FIXED_NOREPLACE, -1, 0);
}
__attribute__((section(".preinit_array"), used)) static void (*const first)(void) = map_below;

static _Thread_local void *local;

int main(void)
{
    GC_INIT();
    local = GC_malloc(100);
    GC_hidden_pointer hidden = GC_HIDE_POINTER(local);
    if (mapped == page) munmap(page, 1);
    for (int k = 0; k < 3; k++) GC_gcollect();
    CHECK(GC_base(GC_REVEAL_POINTER(hidden)) == local);
    return check_ends();
}
