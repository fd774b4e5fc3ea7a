/* Lists of objects with a shadow of each in malloc's memory: they are changed together, and compared. */
#ifndef LISTS_H
#define LISTS_H
#include <stdint.h>
#include <stdio.h>
#include <stdlib.h>
#include "gc.h"

enum { MOST = 300 };
struct node { struct node *next; uint64_t value; char *text; };
struct shadow { uint64_t values[MOST]; int length; };
struct list { struct node *volatile *head; struct shadow *shadow; };

static _Atomic uint64_t compared, made;

static void lost(const char *what)
{
    printf("failed: %s\n", what);
    fflush(stdout);
    abort();
}

static int bytes_of(uint64_t value) { return (int)(value % 90) + 1; }

static void compare(struct node *head, const struct shadow *shadow)
{
    int k = shadow->length;
    for (struct node *node = head; node; node = node->next) {
        if (k-- == 0) lost("a list is longer");
        if (node->value != shadow->values[k]) lost("a node has another value");
        for (int b = 0; b < bytes_of(node->value); b++)
            if ((unsigned char)node->text[b] != (unsigned char)(node->value + (unsigned)b)) lost("a text has another byte");
        compared++;
    }
    if (k != 0) lost("a list is shorter");
}

static struct node *new_node(struct node *next, uint64_t value)
{
    struct node *node = GC_malloc(sizeof *node);
    if (!node) lost("no room for a node");
    if (node->next || node->value || node->text) lost("a new node isn't 0");
    node->text = GC_malloc_atomic((size_t)bytes_of(value));
    if (!node->text) lost("no room for a text");
    for (int b = 0; b < bytes_of(value); b++) node->text[b] = (char)(value + (unsigned)b);
    node->value = value;
    node->next = next;
    made++;
    return node;
}

static void push(struct list *list, uint64_t value)
{
    if (list->shadow->length == MOST) return;
    *list->head = new_node(*list->head, value);
    list->shadow->values[list->shadow->length++] = value;
}

static void pop(struct list *list)
{
    if (list->shadow->length == 0) return;
    *list->head = (*list->head)->next;
    list->shadow->length--;
}

static void reverse_shadow(struct shadow *shadow)
{
    for (int a = 0, b = shadow->length - 1; a < b; a++, b--) {
        uint64_t value = shadow->values[a];
        shadow->values[a] = shadow->values[b];
        shadow->values[b] = value;
    }
}

static void reverse(struct list *list)
{
    struct node *done = NULL, *rest = *list->head;
    while (rest) {
        struct node *next = rest->next;
        rest->next = done;
        done = rest;
        rest = next;
    }
    *list->head = done;
    reverse_shadow(list->shadow);
}

/* The end of a list is made anew. */
static void renew_end(struct list *list, uint64_t value)
{
    struct node *node = *list->head;
    if (!node || !node->next) return;
    while (node->next->next) node = node->next;
    node->next = new_node(NULL, value);
    list->shadow->values[0] = value;
}
#endif
