// Calls of the C library by which the kernel writes into the program's memory: files. A closed page makes no fault then: the call would
// answer EFAULT. So the pages are told and opened first. Only in libmpgc.so, with those of sockets, waiting and times (syscalls_more.c), copies
// (syscalls_copies.c), queues (syscalls_queues.c), locks (syscalls_locks.c), others (syscalls_others.c), `syscall` (syscalls_direct.c), what is done
// beside the program (syscalls_aio.c, syscalls_lookups.c), what threads of its own call (syscalls_notices.c), functions that hand places on
// (syscalls_within.c), sleeps (syscalls_sleeps.c) and the checked names of these (syscalls_checked.c); what is in none of them answers EFAULT, as
// with bdwgc, and loses nothing.
#include "next.h"
#include <stdio.h>
#include <sys/sendfile.h>
#include <sys/stat.h>
#include <sys/statvfs.h>
#include <sys/types.h>
#include <sys/uio.h>
#include <sys/vfs.h>

#undef fread_unlocked

// Who looks for what stands behind a call in the middle of the program waits for a dlopen, which may wait for him; and a handler of signals may
// have come in the middle of one.
HIDDEN extern struct sought __start_mpgc_sought[], __stop_mpgc_sought[];
__attribute__((constructor)) static void find_all(void)
{
    for (struct sought *one = __start_mpgc_sought; one < __stop_mpgc_sought; one++)
        atomic_store_explicit(one->kept, (uintptr_t)dlsym(RTLD_NEXT, one->name), memory_order_relaxed);
}

OPENS(ssize_t, read, (int file, void *into, size_t bytes), (file, into, bytes), into, bytes)
OPENS(ssize_t, pread, (int file, void *into, size_t bytes, off_t from), (file, into, bytes, from), into, bytes)
OPENS(ssize_t, pread64, (int file, void *into, size_t bytes, off64_t from), (file, into, bytes, from), into, bytes)
OPENS(ssize_t, readlink, (const char *restrict path, char *restrict into, size_t bytes), (path, into, bytes), into, bytes)
OPENS(ssize_t, readlinkat, (int folder, const char *restrict path, char *restrict into, size_t bytes), (folder, path, into, bytes), into, bytes)
OPENS(char *, getcwd, (char *into, size_t bytes), (into, bytes), into, into ? bytes : 0)
OPENS(int, pipe, (int ends[2]), (ends), ends, 2 * sizeof *ends)
OPENS(int, pipe2, (int ends[2], int flags), (ends, flags), ends, 2 * sizeof *ends)

#define READS_PARTS(name, words, values) \
    SHOWN ssize_t name words \
    { \
        NEXT(ssize_t, name, words); \
        mpgc_will_write_parts(parts, count > 0 ? (size_t)count : 0); \
        SAYS(next values); \
    }
READS_PARTS(readv, (int file, const struct iovec *parts, int count), (file, parts, count))
READS_PARTS(preadv, (int file, const struct iovec *parts, int count, off_t from), (file, parts, count, from))
READS_PARTS(preadv64, (int file, const struct iovec *parts, int count, off64_t from), (file, parts, count, from))
READS_PARTS(preadv2, (int file, const struct iovec *parts, int count, off_t from, int flags), (file, parts, count, from, flags))
READS_PARTS(preadv64v2, (int file, const struct iovec *parts, int count, off64_t from, int flags), (file, parts, count, from, flags))

static size_t product(size_t size, size_t count) { return size != 0 && count > SIZE_MAX / size ? SIZE_MAX : size * count; }

OPENS(size_t, fread, (void *restrict into, size_t size, size_t count, FILE *restrict file), (into, size, count, file), into,
      product(size, count))
OPENS(size_t, fread_unlocked, (void *restrict into, size_t size, size_t count, FILE *restrict file), (into, size, count, file), into,
      product(size, count))

// Those of each length that tell of a file, and of a file system.
#define STATS(end) \
    OPENS(int, stat##end, (const char *restrict path, struct stat##end *restrict into), (path, into), into, sizeof *into) \
    OPENS(int, lstat##end, (const char *restrict path, struct stat##end *restrict into), (path, into), into, sizeof *into) \
    OPENS(int, fstat##end, (int file, struct stat##end *into), (file, into), into, sizeof *into) \
    OPENS(int, fstatat##end, (int folder, const char *restrict path, struct stat##end *restrict into, int flags), \
          (folder, path, into, flags), into, sizeof *into) \
    OPENS(int, statfs##end, (const char *path, struct statfs##end *into), (path, into), into, sizeof *into) \
    OPENS(int, fstatfs##end, (int file, struct statfs##end *into), (file, into), into, sizeof *into)
STATS()
STATS(64)
OPENS(int, statx, (int folder, const char *restrict path, int flags, unsigned which, struct statx *restrict into),
      (folder, path, flags, which, into), into, sizeof *into)

// Where the reading went on is told.
OPENS(ssize_t, sendfile, (int to, int from, off_t *at, size_t bytes), (to, from, at, bytes), at, sizeof *at)
OPENS(ssize_t, sendfile64, (int to, int from, off64_t *at, size_t bytes), (to, from, at, bytes), at, sizeof *at)
