// Under ThreadSanitizer, which looks for data races: what the layer says to it, and does otherwise. Without it this is all nothing. It is
// GCC's, whose functions stand in a library of their own, behind the program's and before the C library's.
//
// It holds a signal back until its thread makes a call that it knows, or an atomic one: only then is what it knows itself of the thread in
// one piece. So the signal that stops threads is set by its own sigaction, and who waits for the lock looks again and again. Such a thread
// has no frame of the signal: so the handler saves the registers itself (world.c). A thread that reports a race asks the loader for names
// before it can be stopped: so the loader's lock isn't held by who stops the world. And it sets stacks for signals before it has begun: so that
// call isn't taken (kernel/altstack.c). In the last round of destructors of keys it knows the thread no more: so that is said goodbye to before.
//
// What is unseen reads words that others may write meanwhile, as they were before or are then: roots, and figures, on which nothing rests;
// or runs before the tool knows the thread.
// Counted under threads.
#ifndef MPGC_RACES_H
#define MPGC_RACES_H
#include <signal.h>
#include <time.h>

#ifdef __SANITIZE_THREAD__
extern int __interceptor_sigaction(int number, const struct sigaction *next, struct sigaction *old);
#define SET_HANDLER __interceptor_sigaction
#define LONGEST_WAIT (&(const struct timespec){ 0, 1000000 })
#define HOLDS_LOADER 0
#define MOVES_SIGNALS_STACKS 0
#define ROUNDS_OF_TOOL 1
#define UNSEEN __attribute__((no_sanitize("thread")))
#else
#define SET_HANDLER __sigaction
#define LONGEST_WAIT ((const struct timespec *)NULL)
#define HOLDS_LOADER 1
#define MOVES_SIGNALS_STACKS 1
#define ROUNDS_OF_TOOL 0
#define UNSEEN
#endif

#endif
