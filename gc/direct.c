// The kernel's calls by themselves, since the C library's `syscall` is taken for the program (kernel/syscalls_direct.c). Trusted, not proved.
//
// A signal's handler may make them, and a child by vfork: nothing is looked for, and nothing but errno is written.
// Counted under threads.
#include "layer.h"
#include <errno.h>

// As the C library's: -1 with errno for an answer that is an error's number.
UNSEEN long mpgc_call_with(long number, long first, long second, long third, long fourth, long fifth, long sixth)
{
    enum { MOST_ERRORS = 4095 };
    register long in_fourth __asm__("r10") = fourth;
    register long in_fifth __asm__("r8") = fifth;
    register long in_sixth __asm__("r9") = sixth;
    __asm__ volatile("syscall"
                     : "+a"(number)
                     : "D"(first), "S"(second), "d"(third), "r"(in_fourth), "r"(in_fifth), "r"(in_sixth)
                     : "rcx", "r11", "memory");
    if (number >= 0 || number < -MOST_ERRORS) return number;
    errno = (int)-number;
    return -1;
}
