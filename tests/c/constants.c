/* The constants of mpheap.h, each on a line with its name in the sources of the library, to be compared with them. */
#include "mpheap.h"
#include <stdio.h>

#define TELLS(name) printf(#name " %ld\n", (long)MPHEAP_##name)
#define REFUSES(name, constant) printf("Refusal::" #name " %d\n", MPHEAP_##constant)

int main(void) {
    TELLS(MAX_PAGES);
    TELLS(MOST_PAGES);
    TELLS(PAGE_WORDS);
    TELLS(PAGE_BYTES);
    TELLS(WORD_BYTES);
    TELLS(FIRST_ADDRESS);
    TELLS(MAX_SMALL_WORDS);
    TELLS(MAX_REQUEST_WORDS);
    TELLS(MOST_REQUEST_WORDS);
    TELLS(SLOTS);
    TELLS(REGISTERS);
    TELLS(STACK_WORDS);
    TELLS(GLOBALS);
    TELLS(MAX_LINKS);
    TELLS(MAX_HELPERS);
    TELLS(NO_OBJECT);
    TELLS(BAD_NUMBER);
    TELLS(BAD_PAGES);
    TELLS(NO_MEMORY);
    REFUSES(NoSlot, NO_SLOT);
    REFUSES(Misaligned, MISALIGNED);
    REFUSES(NoObject, NO_OBJECT);
    REFUSES(NotBase, NOT_BASE);
    REFUSES(BadSize, BAD_SIZE);
    REFUSES(Full, FULL);
    REFUSES(StackFull, STACK_FULL);
    REFUSES(StackEmpty, STACK_EMPTY);
    REFUSES(WrongPhase, WRONG_PHASE);
    REFUSES(LinksFull, LINKS_FULL);
    REFUSES(NotPointerFree, NOT_POINTER_FREE);
    REFUSES(NeedsFull, NEEDS_FULL);
    return 0;
}
