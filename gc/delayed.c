// Whether a thread that was told to stop will, once the kernel lets it run. Trusted, not proved.
//
// The kernel holds a signal back from a thread that waits uninterruptibly: for a disk, or for its child by vfork; and from one that it gives no
// processor. Such a thread is waited for, for as long as it takes. Where its child starts by posix_spawn it blocks every signal besides. Any other one
// that blocks the signal, or was told and didn't answer, is another matter.
// This runs while threads are stopped: so it takes no lock of the C library, and asks for no memory.
// Counted under threads.
#include "layer.h"
#include <errno.h>
#include <fcntl.h>
#include <stdio.h>
#include <stdlib.h>
#include <string.h>
#include <sys/syscall.h>
#include <unistd.h>

// What the kernel tells of this thread of the process; or nothing.
static void read_status(uint32_t number, char *text, size_t bytes)
{
    char path[64];
    (void)snprintf(path, sizeof path, "/proc/self/task/%u/status", number);
    long file = mpgc_call_kernel(SYS_openat, AT_FDCWD, path, O_RDONLY | O_CLOEXEC), length = 0, read;
    while (file >= 0 && (read = mpgc_call_kernel(SYS_read, file, text + length, bytes - 1 - (size_t)length)) > 0) length += read;
    if (file >= 0) mpgc_call_kernel(SYS_close, file);
    text[length] = 0;
}

static bool has(const char *text, const char *set, int signal)
{
    const char *at = strstr(text, set);
    return at && strtoull(at + strlen(set), NULL, 16) >> (signal - 1) & 1;
}

bool mpgc_is_held_back(const struct thread *one, int signal)
{
    char text[4096];
    int kept = errno;
    read_status(one->number, text, sizeof text);
    errno = kept;
    bool waits_alone = strstr(text, "State:\tD");
    return has(text, "SigPnd:", signal) && (waits_alone || !has(text, "SigBlk:", signal));
}

// Whether one that asked behind its goodbye sleeps in the C library's last moments of a thread, where it blocks all signals, also those of faults:
// it touches no object any more, and waits for a lock, as of malloc, that a stopped thread may have.
bool mpgc_is_leaving(const struct thread *one, int signal)
{
    char text[4096];
    if (!one->is_late) return false;
    int kept = errno;
    read_status(one->number, text, sizeof text);
    errno = kept;
    return strstr(text, "State:\tS") && has(text, "SigPnd:", signal) && has(text, "SigBlk:", signal) && has(text, "SigBlk:", SIGSEGV);
}
