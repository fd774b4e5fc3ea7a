/* The programs of programs.c on several threads at once, each with its own data; of `stores` each thread has 40,000 nodes, and asks for an
 * object every third store. And one more, `live`: all threads together keep 256 MiB, and ask for as much again that goes.
 *
 *     on_threads NAME ROUNDS THREADS
 *
 * prints the milliseconds until all have ended, those that the processors worked, the longest request of a thread in microseconds of its own
 * time (so that others on the machine don't count), and an answer that has to be the same over every heap. */
#define GC_THREADS
#define STOPS
#define CLOCK CLOCK_THREAD_CPUTIME_ID
#define main on_one_thread
#include "programs.c"
#undef main
#include <pthread.h>

int GC_pthread_create(pthread_t *thread, const pthread_attr_t *attributes, void *(*start)(void *), void *data);
int GC_pthread_join(pthread_t thread, void **answer);

static uint64_t (*program)(void);
static int rounds, many;
static double all_longest;
static uint64_t sum;
static pthread_mutex_t lock = PTHREAD_MUTEX_INITIALIZER;

/* An object is of 32 bytes over either heap. */
static uint64_t live(void)
{
    int depth = 22;
    for (int k = many; k > 1; k /= 2) depth--;
    const struct tree *kept = make_tree(depth);
    for (int k = 0; k < 256; k++) (void)make_tree(depth - 8);
    return count_tree(kept);
}

static void *run(void *number)
{
    uint64_t answer = 0;
    state += (uintptr_t)number;
    for (int round = 0; round < rounds; round++) answer += program();
    pthread_mutex_lock(&lock);
    sum += answer;
    if (longest > all_longest) all_longest = longest;
    pthread_mutex_unlock(&lock);
    return number;
}

static double milliseconds(clockid_t clock)
{
    struct timespec time;
    clock_gettime(clock, &time);
    return (double)time.tv_sec * 1e3 + (double)time.tv_nsec / 1e6;
}

int main(int count, char **words)
{
    static const struct { const char *name; uint64_t (*run)(void); } all[] = {
        { "gcbench", gcbench }, { "tree", tree }, { "list", list }, { "table", table }, { "strings", strings },
        { "stores", stores }, { "live", live }
    };
    pthread_t threads[64];
    many = count > 3 ? atoi(words[3]) : 1;
    nodes = 40000;
    every = 3;
    if (count < 3 || many < 1 || many > 64) return 1;
    GC_INIT();
    GC_allow_register_threads();
    for (size_t k = 0; k < sizeof all / sizeof *all; k++)
        if (strcmp(all[k].name, words[1]) == 0) program = all[k].run;
    if (!program) return 1;
    rounds = atoi(words[2]);
    double start = milliseconds(CLOCK_MONOTONIC);
    for (int k = 1; k < many; k++)
        if (GC_pthread_create(&threads[k], NULL, run, (void *)(uintptr_t)k) != 0) return 1;
    run(NULL);
    for (int k = 1; k < many; k++) GC_pthread_join(threads[k], NULL);
    printf("%.0f %.0f %.0f %lu\n", milliseconds(CLOCK_MONOTONIC) - start, milliseconds(CLOCK_PROCESS_CPUTIME_ID),
           all_longest, (unsigned long)sum);
    (void)on_one_thread;
    return 0;
}
