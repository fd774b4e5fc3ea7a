/* A test walks through a call: the processor is told to trap behind each instruction (x86-64), and the handler of that has a child do at this
 * moment what a handler of the program might, and go on without traps. */
#ifndef TRAPS_H
#define TRAPS_H
#define TRAP_FLAG 0x100
static inline void trap(void) { __asm__ volatile("pushfq; orq %0, (%%rsp); popfq" : : "i"(TRAP_FLAG) : "memory", "cc"); }
static inline void trap_no_more(void) { __asm__ volatile("pushfq; andq %0, (%%rsp); popfq" : : "i"(~TRAP_FLAG) : "memory", "cc"); }
#endif
