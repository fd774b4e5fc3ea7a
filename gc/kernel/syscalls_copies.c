// Calls of the C library by which the kernel writes into the program's memory, as in syscalls.c: what it copies between files, pipes and processes,
// messages that it sends and what belongs to files besides their bytes; and by their old names those of syscalls.c that tell of files. Only in
// libmpgc.so.
#include "next.h"
#include <fcntl.h>
#include <sys/socket.h>
#include <sys/stat.h>
#include <sys/uio.h>
#include <sys/xattr.h>
#include <unistd.h>

// Where the reading and the writing went on is told.
#define COPIES(name, flags) \
    SHOWN ssize_t name(int from, off64_t *at, int to, off64_t *into, size_t bytes, unsigned flags) \
    { \
        NEXT(ssize_t, name, (int, off64_t *, int, off64_t *, size_t, unsigned)); \
        mpgc_will_write(at, sizeof *at); \
        mpgc_will_write(into, sizeof *into); \
        SAYS(next(from, at, to, into, bytes, flags)); \
    }
COPIES(splice, flags)
COPIES(copy_file_range, flags)

// Where the file is a pipe's end to read from.
SHOWN ssize_t vmsplice(int file, const struct iovec *parts, size_t count, unsigned flags)
{
    NEXT(ssize_t, vmsplice, (int, const struct iovec *, size_t, unsigned));
    mpgc_will_write_parts(parts, count);
    SAYS(next(file, parts, count, flags));
}

SHOWN ssize_t process_vm_readv(pid_t process, const struct iovec *parts, unsigned long count, const struct iovec *from, unsigned long others,
                               unsigned long flags)
{
    NEXT(ssize_t, process_vm_readv, (pid_t, const struct iovec *, unsigned long, const struct iovec *, unsigned long, unsigned long));
    mpgc_will_write_parts(parts, count);
    SAYS(next(process, parts, count, from, others, flags));
}

// Into this process itself.
SHOWN ssize_t process_vm_writev(pid_t process, const struct iovec *parts, unsigned long count, const struct iovec *into, unsigned long others,
                                unsigned long flags)
{
    NEXT(ssize_t, process_vm_writev, (pid_t, const struct iovec *, unsigned long, const struct iovec *, unsigned long, unsigned long));
    if (process == getpid()) mpgc_will_write_parts(into, others);
    SAYS(next(process, parts, count, into, others, flags));
}

// How much of each was sent is told.
OPENS(int, sendmmsg, (int file, struct mmsghdr *messages, unsigned count, int flags), (file, messages, count, flags), messages,
      count * sizeof *messages)

// What belongs to files.
#define HAS(name, which, whose) \
    OPENS(ssize_t, name, (which, const char *key, void *into, size_t bytes), (whose, key, into, bytes), into, bytes)
HAS(getxattr, const char *path, path)
HAS(lgetxattr, const char *path, path)
HAS(fgetxattr, int file, file)
#define LISTS(name, which, whose) OPENS(ssize_t, name, (which, char *into, size_t bytes), (whose, into, bytes), into, bytes)
LISTS(listxattr, const char *path, path)
LISTS(llistxattr, const char *path, path)
LISTS(flistxattr, int file, file)

// Its handle, which says how long it may be.
SHOWN int name_to_handle_at(int folder, const char *path, struct file_handle *into, int *mount, int flags)
{
    NEXT(int, name_to_handle_at, (int, const char *, struct file_handle *, int *, int));
    if (into) mpgc_will_write(into, sizeof *into + into->handle_bytes);
    mpgc_will_write(mount, sizeof *mount);
    SAYS(next(folder, path, into, mount, flags));
}

// By which a program calls that was built for a C library before 2.33.
#define OLD_STATS(end) \
    SHOWN int __xstat##end(int version, const char *path, struct stat##end *into); \
    OPENS(int, __xstat##end, (int version, const char *path, struct stat##end *into), (version, path, into), into, sizeof *into) \
    SHOWN int __lxstat##end(int version, const char *path, struct stat##end *into); \
    OPENS(int, __lxstat##end, (int version, const char *path, struct stat##end *into), (version, path, into), into, sizeof *into) \
    SHOWN int __fxstat##end(int version, int file, struct stat##end *into); \
    OPENS(int, __fxstat##end, (int version, int file, struct stat##end *into), (version, file, into), into, sizeof *into) \
    SHOWN int __fxstatat##end(int version, int folder, const char *path, struct stat##end *into, int flags); \
    OPENS(int, __fxstatat##end, (int version, int folder, const char *path, struct stat##end *into, int flags), \
          (version, folder, path, into, flags), into, sizeof *into)
OLD_STATS()
OLD_STATS(64)
