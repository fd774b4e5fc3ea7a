// The C library's calls that make threads, wait for them and end them, so that a program's threads are known which were made without
// bdwgc's names for these; and that by which their keys go. Only in libmpgc.so.
#include "next.h"
#include <pthread.h>
#include <threads.h>

int GC_pthread_join(pthread_t thread, void **answer);
int GC_pthread_detach(pthread_t thread);
_Noreturn void GC_pthread_exit(void *answer);

SHOWN int pthread_create(pthread_t *restrict thread, const pthread_attr_t *restrict attributes, void *(*start)(void *), void *restrict data)
{
    return mpgc_create(thread, attributes, start, data, false);
}
SHOWN int pthread_join(pthread_t thread, void **answer) { return GC_pthread_join(thread, answer); }
SHOWN int pthread_detach(pthread_t thread) { return GC_pthread_detach(thread); }
SHOWN void pthread_exit(void *answer) { GC_pthread_exit(answer); }

// What is written down of a key (locals.c) would stay a root: nobody asks for it any more.
SHOWN int pthread_key_delete(pthread_key_t key)
{
    NEXT(int, pthread_key_delete, (pthread_key_t));
    (void)pthread_setspecific(key, NULL);
    return next(key);
}
SHOWN void tss_delete(tss_t key) { (void)pthread_key_delete(key); }

static int said(int status) { return status == 0 ? thrd_success : thrd_error; }

SHOWN int thrd_create(thrd_t *thread, thrd_start_t start, void *data)
{
    return said(mpgc_create(thread, NULL, (void *(*)(void *))(void (*)(void))start, data, false));
}
SHOWN int thrd_join(thrd_t thread, int *answer)
{
    void *all = NULL;
    int status = GC_pthread_join(thread, &all);
    if (answer) *answer = (int)(intptr_t)all;
    return said(status);
}
SHOWN int thrd_detach(thrd_t thread) { return said(GC_pthread_detach(thread)); }
SHOWN void thrd_exit(int answer) { GC_pthread_exit((void *)(intptr_t)answer); }
