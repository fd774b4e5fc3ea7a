/* An object to be loaded (loading.c): its constructor calls the function whose address the environment has. */
#include <stdint.h>
#include <stdlib.h>

__attribute__((constructor)) static void calls(void)
{
    const char *address = getenv("CALLED_WHILE_LOADING");
    if (address) ((void (*)(void))(uintptr_t)strtoull(address, NULL, 16))();
}
