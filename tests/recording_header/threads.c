/* Four threads on one heap behind one lock, under which each writes down what it did: the run is one history, which is legal. */
#include "mpheap_record.h"
#include <pthread.h>

enum { THREADS = 4, OBJECTS = 300, WORDS = 2 * THREADS * OBJECTS };

static pthread_mutex_t lock = PTHREAD_MUTEX_INITIALIZER;
static uint64_t words[WORDS], used, registers[THREADS][2];
static mpheap_recorder run;
static char memory[4096];

/* A mutator's next object: register 0 has it, and its first word is what register 1 had, which has the object then too. */
static void take(unsigned slot) {
    uint64_t *object = &words[used];
    used += 2;
    registers[slot][0] = (uint64_t)(uintptr_t)object;
    mpheap_record_alloc(&run, slot, 0, 2, false, 0, registers[slot][0], 2);
    object[0] = registers[slot][1];
    mpheap_record_store(&run, slot, 0, 0, 1, 0);
    registers[slot][1] = registers[slot][0];
    mpheap_record_copy(&run, slot, 1, 0);
    mpheap_record_load(&run, slot, 2, 1, 0, 0, object[0]);
}

static void *mutate(void *own) {
    unsigned slot = *(unsigned *)own;
    int at;
    for (at = 0; at < OBJECTS; at++) {
        pthread_mutex_lock(&lock);
        take(slot);
        pthread_mutex_unlock(&lock);
    }
    return NULL;
}

int main(void) {
    pthread_t threads[THREADS];
    unsigned slots[THREADS], at;
    mpheap_record_open(&run, STDOUT_FILENO, memory, sizeof memory);
    for (at = 0; at < THREADS; at++) mpheap_record_attach(&run, 0, at);
    for (at = 0; at < THREADS; at++) slots[at] = at;
    for (at = 0; at < THREADS; at++)
        if (pthread_create(&threads[at], NULL, mutate, &slots[at]) != 0) return 1;
    for (at = 0; at < THREADS; at++) pthread_join(threads[at], NULL);
    mpheap_record_collect(&run);
    return mpheap_record_close(&run) != 0;
}
