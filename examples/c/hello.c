/* A list of three numbers in a collected heap: what a root leads to stays, and the rest goes. */
#include "mpheap.h"
#include <stdio.h>

enum { LIST = 0, CELL = 1, NUMBER = 2 }; /* registers: the list, a new cell, a number for it */

int main(void) {
    mpheap heap = MPHEAP_CLOSED;
    uint8_t me = 0;
    uint64_t number = 0, next = 0, gone = 0, cell = 0;

    if (mpheap_open_mapped(4, &heap) != MPHEAP_OK || mpheap_attach(&heap, &me) != MPHEAP_OK) return 1;
    for (number = 1; number <= 3; number++) { /* cells of two words: a number, and the next cell */
        if (mpheap_alloc(&heap, me, CELL, 2) != MPHEAP_OK) return 1;
        mpheap_set(&heap, me, NUMBER, number);
        mpheap_store(&heap, me, CELL, 0, NUMBER);
        mpheap_store(&heap, me, CELL, 1, LIST);
        mpheap_copy(&heap, me, LIST, CELL);
    }
    mpheap_get(&heap, me, LIST, &cell); /* an address of the heap is a pointer */
    for (next = cell; next != 0; next = ((uint64_t *)(uintptr_t)next)[1])
        printf("%d\n", (int)((uint64_t *)(uintptr_t)next)[0]);

    mpheap_set(&heap, me, CELL, 0);
    mpheap_load(&heap, me, LIST, LIST, 1, &next); /* the root leads to the second cell: the first is lost */
    mpheap_collect(&heap, &gone);
    printf("%d object is gone\n", (int)gone);
    mpheap_close(&heap);
    return 0;
}
