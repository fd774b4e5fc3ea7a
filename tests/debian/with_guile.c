/* A program of C with Guile within, whose own threads enter it and leave it again. */
#include <libguile.h>
#include <pthread.h>
#include <stdio.h>

enum { THREADS = 6, ROUNDS = 60 };
struct own { pthread_t thread; long sum; };

/* What Guile makes of a number, and objects that the thread's stack alone names. */
static void *enter(void *data)
{
    struct own *own = data;
    SCM work = scm_c_eval_string("(lambda (n) (apply + (map (lambda (k) (string-length (number->string (* n k)))) (iota 200))))");
    SCM kept = SCM_EOL;
    for (int k = 0; k < 200; k++) kept = scm_cons(scm_from_utf8_string("a word"), kept);
    own->sum += scm_to_long(scm_call_1(work, scm_from_long(own->sum % 1000)));
    for (; !scm_is_null(kept); kept = scm_cdr(kept)) own->sum += (long)scm_c_string_length(scm_car(kept));
    return NULL;
}

static void *begin(void *data)
{
    for (int k = 0; k < ROUNDS; k++) scm_with_guile(enter, data);
    return NULL;
}

static void *join(void *data)
{
    struct own *own = data;
    pthread_join(own->thread, NULL);
    return NULL;
}

static void *within(void *data)
{
    struct own own[THREADS];
    for (long k = 0; k < THREADS; k++) {
        own[k].sum = k;
        pthread_create(&own[k].thread, NULL, begin, &own[k]);
    }
    for (int k = 0; k < THREADS; k++) {
        scm_without_guile(join, &own[k]);
        printf("%ld\n", own[k].sum);
    }
    return data;
}

int main(void)
{
    scm_with_guile(within, NULL);
    return 0;
}
