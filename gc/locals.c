// What a thread has for itself alone: thread-local data, and what it has set by keys. Trusted, not proved.
//
// What it owes the core: as roots.c, each word by which the program may still reach an object is read.
//
// The loader tells where this thread's data is, and not where another's. But each thread has a vector of its modules' data behind its own
// pointer, in the same place since the first C library for threads of this kind. (Most of it lies at the end of the stack too, but not for
// the first thread, and not what was loaded later.) The vector needn't tell of an object that was loaded later and was compiled for the room
// that each thread has kept for it from its start: so in the first thread that is read too. Keys are in no documented place: so what is set
// is written down here too.
// Counted under threads.
#include "layer.h"
#include "kernel/next.h"
#include <errno.h>
#include <link.h>
#include <string.h>
#include <sys/mman.h>
#include <sys/syscall.h>
#include <unistd.h>

struct module_data { const char *at; void *whole; };  // the last is null where it was there when the thread began

enum { KEYS = 1024 };  // PTHREAD_KEYS_MAX

static _Thread_local void **keys __attribute__((tls_model("initial-exec")));

// By a call that answers EFAULT if not, and else EINVAL.
bool mpgc_can_be_read(const char *at)
{
    enum { NO_WAY = -1, BYTES = 8 };
    return mpgc_call_kernel(SYS_rt_sigprocmask, NO_WAY, at, NULL, BYTES) == 0 || errno != EFAULT;
}

// What is there may be of an object that was unloaded, and shorter, since the thread hasn't looked again; and of this thread too, while
// another one loads an object in that one's place.
static void scan_as_far_as_it_goes(const char *from, const char *to, void (*scan)(const char *from, const char *to))
{
    int kept = errno;
    while (from < to && mpgc_can_be_read(from)) {
        const char *end = (const char *)(((uintptr_t)from & ~(PAGE - 1)) + PAGE);
        scan(from, end < to ? end : to);
        from = end;
    }
    errno = kept;
}

void mpgc_scan_locals(const struct thread *thread, size_t module, size_t bytes, void (*scan)(const char *from, const char *to))
{
    const struct module_data *vector = ((struct module_data **)(void *)thread->pointer)[1];
    if (module > (size_t)(uintptr_t)vector[-1].at) return;  // loaded since this thread last looked
    const char *data = vector[module].at;
    if (!data || data == (const char *)-1) return;          // not there yet
    bool goes_past = data < thread->pointer && data + bytes > thread->pointer;  // where it was there when the thread began it lies before that
    if (vector[module].whole)
        scan_as_far_as_it_goes(data, data + bytes, scan);
    else
        scan(data, goes_past ? thread->pointer : data + bytes);
}

// What the C library keeps free beside the first thread's data: it lies below that of all objects that came with the program.
static struct { const char *pointer, *from, *to; } room;

static int ends_below(struct dl_phdr_info *object, size_t size, void *unused)
{
    const char *data = size >= sizeof *object ? object->dlpi_tls_data : NULL;
    (void)unused;
    if (data && data >= room.from && data < room.to) room.to = data;
    return 0;
}

// Of how many bytes it is with that data, and some more: as the loader tells sanitizers. 0 where it doesn't.
static size_t bytes_of_room(void)
{
    void (*tell)(size_t *bytes, size_t *alignment), *found = dlsym(RTLD_DEFAULT, "_dl_get_tls_static_info");
    size_t bytes = 0, alignment;
    _Static_assert(sizeof found == sizeof tell, "functions have other pointers than data");
    memcpy(&tell, &found, sizeof tell);
    if (found) tell(&bytes, &alignment);
    return bytes;
}

// Another thread's lies at the end of its stack.
__attribute__((constructor)) static void find_room(void)
{
    if (mpgc_call_kernel(SYS_gettid) != getpid()) return;
    room.pointer = room.to = __builtin_thread_pointer();
    room.from = room.to - bytes_of_room();
    dl_iterate_phdr(ends_below, NULL);
}

// What lies lowest there may be another's, and come and go.
void mpgc_scan_room_of_locals(const struct thread *thread, void (*scan)(const char *from, const char *to))
{
    const char *from = thread->pointer == room.pointer ? room.from : room.to;
    int kept = errno;
    while (from < room.to && !mpgc_can_be_read(from)) from = (const char *)(((uintptr_t)from & ~(PAGE - 1)) + PAGE);
    errno = kept;
    if (from < room.to) scan(from, room.to);
}

void mpgc_scan_keys(const struct thread *thread, void (*scan)(const char *from, const char *to))
{
    const char *all = (const char *)*thread->keys;
    if (all) scan(all, all + KEYS * sizeof *keys);
}

// They are this thread's, whether it is known yet or not.
void mpgc_set_keys(struct thread *thread)
{
    thread->pointer = __builtin_thread_pointer();
    thread->keys = &keys;
    if (thread->is_late) thread->late_keys = keys;
}

// Not by malloc, which may itself set a key.
UNSEEN static void **made(void)
{
    void *at = (void *)mpgc_call_kernel(SYS_mmap, NULL, KEYS * sizeof *keys, PROT_READ | PROT_WRITE, MAP_PRIVATE | MAP_ANONYMOUS, -1, 0L);
    return at == MAP_FAILED ? NULL : at;
}

UNSEEN int mpgc_set_own_key(pthread_key_t key, const void *value)
{
    NEXT(int, pthread_setspecific, (pthread_key_t, const void *));
    return next(key, value);
}

// It is written down from the first word on that may lead to an object. A thread that isn't known any more, or not yet, is from then
// on: what is made for it goes with its record.
UNSEEN SHOWN int pthread_setspecific(pthread_key_t key, const void *value)
{
    if (mpgc_is_inside((uintptr_t)value) && !keys) {
        if (!mpgc_self && mpgc.is_threaded) mpgc_enter();
        keys = made();
        if (!keys) return ENOMEM;
        if (mpgc_self && mpgc_self->is_late) mpgc_self->late_keys = keys;
    }
    if (keys && key < KEYS) keys[key] = (void *)(uintptr_t)value;
    return mpgc_set_own_key(key, value);
}

void mpgc_free_keys(void **room)
{
    if (room) munmap(room, KEYS * sizeof *room);
}

// This thread ends, and is known no more.
void mpgc_drop_keys(void)
{
    mpgc_free_keys(keys);
    keys = NULL;
}

SHOWN int tss_set(unsigned key, void *value);
int tss_set(unsigned key, void *value) { return pthread_setspecific(key, value) == 0 ? 0 : 2; }
