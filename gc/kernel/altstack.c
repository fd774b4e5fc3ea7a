// The stack of a program's signals, where it lies on the thread's own, maybe in a frame that has gone since. Of a program's faults the first
// is the last, so that nobody minds; but the barrier's are many, and each would write over what the thread has there now. So the kernel is
// given a place elsewhere, and the program is told of its own.
#include "../front.h"
#include <sys/mman.h>
#include <sys/syscall.h>
#include <unistd.h>

extern void *__libc_stack_end;

static _Thread_local stack_t asked __attribute__((tls_model("initial-exec")));  // by the program
static _Thread_local void *place __attribute__((tls_model("initial-exec")));    // for this one, or for none
static _Thread_local size_t bytes __attribute__((tls_model("initial-exec")));

static bool is_on_own_stack(const char *at)
{
    const char *bottom = mpgc_this_thread() ? mpgc_stack_bottom() : __libc_stack_end;
    return at >= (const char *)__builtin_frame_address(0) && at < bottom;
}

static bool has_place(size_t wanted)
{
    if (wanted <= bytes) return true;
    void *made = mmap(NULL, wanted, PROT_READ | PROT_WRITE, MAP_PRIVATE | MAP_ANONYMOUS, -1, 0);
    if (made == MAP_FAILED) return false;
    place = made;
    bytes = wanted;
    return true;
}

SHOWN int sigaltstack(const stack_t *restrict next, stack_t *restrict old)
{
    stack_t was, instead, before = asked;
    bool moves = next && !(next->ss_flags & SS_DISABLE) && is_on_own_stack(next->ss_sp) && has_place(next->ss_size);
    if (moves) instead = (stack_t){ .ss_sp = place, .ss_flags = next->ss_flags, .ss_size = next->ss_size };
    if (mpgc_call_kernel(SYS_sigaltstack, moves ? &instead : next, &was) != 0) return -1;
    if (next) asked = *next;
    if (old) *old = was;
    if (old && place && was.ss_sp == place) old->ss_sp = before.ss_sp;
    return 0;
}

// The thread ends, with signals blocked. A fault that comes still is handled on its own stack; where it is on that place, this stays.
void mpgc_drop_signals_stack(void)
{
    static const stack_t none = { .ss_flags = SS_DISABLE };
    if (!place || mpgc_call_kernel(SYS_sigaltstack, &none, NULL) != 0) return;
    munmap(place, bytes);
    place = NULL;
    bytes = 0;
}
