/* A program that mescc compiles to assembly. */
#include <stdio.h>
#include <string.h>
struct word { char *text; long length; struct word *next; };
int fib(int n) { return n < 2 ? n : fib(n - 1) + fib(n - 2); }
long longest(struct word *first)
{
    long most = 0;
    for (; first; first = first->next)
        if (first->length > most) most = first->length;
    return most;
}
int main(int count, char **words)
{
    struct word one, two;
    one.text = "a";
    one.length = strlen(one.text);
    one.next = &two;
    two.text = "words";
    two.length = 5;
    two.next = 0;
    switch (count) {
        case 1: puts("one"); break;
        case 2: puts(words[1]); break;
        default: puts("more");
    }
    while (count--) one.length += fib(count) % 7;
    return longest(&one);
}
