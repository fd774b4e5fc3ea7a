/* A program of C with ecl within, whose own threads enter it and leave it again. */
#include <ecl/ecl.h>
#include <pthread.h>
#include <stdio.h>

enum { THREADS = 6, ROUNDS = 10 };

static void *begin(void *data)
{
    long *sum = data;
    for (int k = 0; k < ROUNDS; k++) {
        if (!ecl_import_current_thread(ECL_NIL, ECL_NIL)) return NULL;
        cl_object list = ECL_NIL;
        for (int n = 0; n < 2000; n++) list = ecl_cons(ecl_make_single_float((float)n), list);
        cl_object length = cl_funcall(2, ecl_make_symbol("LENGTH", "CL"), list);
        *sum += ecl_fixnum(length) + ecl_fixnum(cl_eval(c_string_to_object("(loop for k below 300 sum (length (format nil \"~a\" (list k (* k k)))))")));
        for (; list != ECL_NIL; list = ECL_CONS_CDR(list)) *sum += (long)ecl_single_float(ECL_CONS_CAR(list)) % 7;
        ecl_release_current_thread();
    }
    return NULL;
}

int main(int count, char **words)
{
    pthread_t threads[THREADS];
    long sums[THREADS];
    cl_boot(count, words);
    for (long k = 0; k < THREADS; k++) {
        sums[k] = k;
        pthread_create(&threads[k], NULL, begin, &sums[k]);
    }
    for (int k = 0; k < THREADS; k++) pthread_join(threads[k], NULL);
    for (int k = 0; k < THREADS; k++) printf("%ld\n", sums[k]);
    cl_shutdown();
    return 0;
}
