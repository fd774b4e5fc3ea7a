/* What a caller must not do, and what then happens: each of these is stopped at address 0. */
#include "mpheap.h"
#include <stdlib.h>

int main(int argc, char **argv) {
    mpheap heap = MPHEAP_CLOSED;
    uint8_t slot = 0;
    int which = argc > 1 ? atoi(argv[1]) : 0;
    if (which == 1) mpheap_attach(&heap, &slot); /* a closed heap */
    if (which == 2) mpheap_attach(NULL, &slot);  /* no heap */
    if (mpheap_open(4, &heap) != MPHEAP_OK) return 1;
    mpheap_close(&heap);
    if (which == 3) mpheap_close(&heap);         /* closed twice */
    if (which == 4) mpheap_attach(&heap, &slot); /* used after it was closed */
    return 0;
}
