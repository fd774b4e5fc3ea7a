/* A program that was written for bdwgc: it makes a list among much garbage, collects, and walks it. */
#include <stddef.h>
#include <stdio.h>
void GC_init(void);
void *GC_malloc(size_t bytes);
void GC_gcollect(void);
struct link {
    struct link *next;
    long number;
};
int main(void)
{
    struct link *first = NULL;
    long sum = 0;
    GC_init();
    for (long number = 1; number <= 200000; number++) {
        struct link *made = GC_malloc(sizeof *made);
        made->number = number;
        if (number % 100 == 0) {
            made->next = first;
            first = made;
        }
    }
    GC_gcollect();
    for (struct link *at = first; at != NULL; at = at->next)
        sum += at->number;
    printf("%ld\n", sum);
    return 0;
}
