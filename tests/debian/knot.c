/* The polynomial of a trefoil, by libhomfly. */
#include <stdio.h>
#include <homfly.h>
int main(void)
{
    char trefoil[] = " 1 6 0 1 1 -1 2 1 0 -1 1 1 2 -1 0 1 1 1 2 1";
    puts(homfly_str(trefoil));
    return 0;
}
