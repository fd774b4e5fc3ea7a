// The names by which a program that was built with checks of its buffers (_FORTIFY_SOURCE, as distributions build theirs) calls what is in
// syscalls.c and syscalls_more.c. Only in libmpgc.so.
#include "next.h"
#include <poll.h>
#include <stdio.h>
#include <sys/socket.h>
#include <sys/types.h>

#define CHECKED(answer, name, words, values, into, bytes) \
    SHOWN answer name words; \
    OPENS(answer, name, words, values, into, bytes)

CHECKED(ssize_t, __read_chk, (int file, void *into, size_t bytes, size_t room), (file, into, bytes, room), into, bytes)
CHECKED(ssize_t, __pread_chk, (int file, void *into, size_t bytes, off_t from, size_t room), (file, into, bytes, from, room), into, bytes)
CHECKED(ssize_t, __pread64_chk, (int file, void *into, size_t bytes, off64_t from, size_t room), (file, into, bytes, from, room), into, bytes)
CHECKED(ssize_t, __readlink_chk, (const char *path, char *into, size_t bytes, size_t room), (path, into, bytes, room), into, bytes)
CHECKED(ssize_t, __readlinkat_chk, (int folder, const char *path, char *into, size_t bytes, size_t room),
        (folder, path, into, bytes, room), into, bytes)
CHECKED(int, __getgroups_chk, (int most, gid_t *into, size_t room), (most, into, room), into, room)
CHECKED(char *, __getcwd_chk, (char *into, size_t bytes, size_t room), (into, bytes, room), into, bytes)
CHECKED(ssize_t, __recv_chk, (int file, void *into, size_t bytes, size_t room, int flags), (file, into, bytes, room, flags), into, bytes)
CHECKED(int, __poll_chk, (struct pollfd *files, nfds_t count, int timeout, size_t room), (files, count, timeout, room), files,
        count * sizeof *files)

SHOWN int __ppoll_chk(struct pollfd *files, nfds_t count, const struct timespec *timeout, const sigset_t *blocked, size_t room);
SHOWN int __ppoll_chk(struct pollfd *files, nfds_t count, const struct timespec *timeout, const sigset_t *blocked, size_t room)
{
    NEXT(int, __ppoll_chk, (struct pollfd *, nfds_t, const struct timespec *, const sigset_t *, size_t));
    mpgc_will_write(files, count * sizeof *files);
    sigset_t mask;
    SAYS(next(files, count, timeout, mpgc_without_faults(blocked, &mask), room));
}

// No more than the room is written, or the program is stopped.
CHECKED(size_t, __fread_chk, (void *into, size_t room, size_t size, size_t count, FILE *file), (into, room, size, count, file), into, room)
CHECKED(size_t, __fread_unlocked_chk, (void *into, size_t room, size_t size, size_t count, FILE *file), (into, room, size, count, file), into,
        room)

SHOWN ssize_t __recvfrom_chk(int file, void *into, size_t bytes, size_t room, int flags, struct sockaddr *from, socklen_t *length);
SHOWN ssize_t __recvfrom_chk(int file, void *into, size_t bytes, size_t room, int flags, struct sockaddr *from, socklen_t *length)
{
    NEXT(ssize_t, __recvfrom_chk, (int, void *, size_t, size_t, int, struct sockaddr *, socklen_t *));
    mpgc_will_write(into, bytes);
    if (length) {
        mpgc_will_write(from, *length);
        mpgc_will_write(length, sizeof *length);
    }
    SAYS(next(file, into, bytes, room, flags, from, length));
}
