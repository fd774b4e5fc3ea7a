/* bdwgc's gc_pthread_redirects.h: a program that defines GC_THREADS makes its threads by the names below, without saying so.
 * GC_NO_THREAD_REDIRECTS leaves the C library's names alone, GC_NO_DLOPEN, GC_NO_PTHREAD_CANCEL and GC_NO_PTHREAD_SIGMASK single ones.
 * gc.h reads it. */
#ifndef GC_PTHREAD_REDIRECTS_H
#define GC_PTHREAD_REDIRECTS_H
#if defined(GC_H) && defined(GC_PTHREADS)

#ifndef GC_PTHREAD_REDIRECTS_ONLY
#include <pthread.h>
#ifndef GC_NO_DLOPEN
#include <dlfcn.h>
#endif
#ifndef GC_NO_PTHREAD_SIGMASK
#include <signal.h>
#endif
#ifndef GC_SUSPEND_THREAD_ID
#define GC_SUSPEND_THREAD_ID pthread_t
#endif
#ifndef GC_PTHREAD_CREATE_CONST
#define GC_PTHREAD_CREATE_CONST const
#endif

#ifdef __cplusplus
extern "C" {
#endif

GC_API int GC_pthread_create(pthread_t *thread, GC_PTHREAD_CREATE_CONST pthread_attr_t *attributes, void *(*start)(void *), void *data);
GC_API int GC_pthread_join(pthread_t thread, void **answer);
GC_API int GC_pthread_detach(pthread_t thread);
#ifndef GC_NO_PTHREAD_CANCEL
GC_API int GC_pthread_cancel(pthread_t thread);
#endif
#ifndef GC_PTHREAD_EXIT_DECLARED
#define GC_PTHREAD_EXIT_DECLARED
GC_API void GC_pthread_exit(void *answer) GC_PTHREAD_EXIT_ATTRIBUTE;
#endif
#ifndef GC_NO_DLOPEN
GC_API void *GC_dlopen(const char *path, int mode);
#endif
#if !defined(GC_NO_PTHREAD_SIGMASK) && \
    (defined(GC_PTHREAD_SIGMASK_NEEDED) || defined(_GNU_SOURCE) || (defined(_POSIX_C_SOURCE) && _POSIX_C_SOURCE >= 199506L))
GC_API int GC_pthread_sigmask(int how, const sigset_t *set, sigset_t *old);
#endif

#ifdef __cplusplus
}
#endif
#endif

#if !defined(GC_NO_THREAD_REDIRECTS) && !defined(GC_USE_LD_WRAP)
#undef pthread_create
#define pthread_create GC_pthread_create
#undef pthread_join
#define pthread_join GC_pthread_join
#undef pthread_detach
#define pthread_detach GC_pthread_detach
#undef pthread_exit
#define pthread_exit GC_pthread_exit
#ifndef GC_NO_PTHREAD_CANCEL
#undef pthread_cancel
#define pthread_cancel GC_pthread_cancel
#endif
#ifndef GC_NO_PTHREAD_SIGMASK
#undef pthread_sigmask
#define pthread_sigmask GC_pthread_sigmask
#endif
#ifndef GC_NO_DLOPEN
#undef dlopen
#define dlopen GC_dlopen
#endif
#endif

#endif
#endif
