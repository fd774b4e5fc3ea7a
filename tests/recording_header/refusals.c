/* Prints each refusal as a line has it, beside the number that the header's names have. */
#include "mpheap_record.h"
#include <stdio.h>

int main(void) {
    uint32_t status;
    for (status = MPHEAP_REFUSED_NO_SLOT; status <= MPHEAP_REFUSED_NEEDS_FULL; status++) printf("%u %s\n", (unsigned)status, mpheap_record_refusal(status));
    return 0;
}
