/* A symbol table whose symbols go when nobody uses them: intern < TEXT.
 *
 * A symbol is a pointer-free object: its length, and then its letters. The table is a pointer-free object of 64 words, each 0 or
 * the address of a symbol to which a link stands there. So the table keeps no symbol. While a root leads to one, its name is
 * found in the table and gives the same address, so that two symbols are the same name exactly where they are the same word.
 * Once none does, a collection takes the symbol and makes the table's word 0, and the place is free for another.
 *
 * In use here are the symbols of the last eight words of the text: eight globals of the heap hold them. */
#include "mpheap.h"
#include <ctype.h>
#include <stdio.h>
#include <stdlib.h>

enum { PAGES = 4, PLACES = MPHEAP_MAX_LINKS, LONGEST = 31, IN_USE = 8 };
enum { TABLE, SYMBOL }; /* registers */

static mpheap heap = MPHEAP_CLOSED;
static uint8_t me;
static uint64_t *table;
static unsigned words_read, made, gone;

static void must(uint32_t status) {
    if (status == MPHEAP_OK) return;
    fprintf(stderr, "intern: status %u\n", (unsigned)status);
    exit(1);
}

static uint64_t *at(uint64_t address) {
    return (uint64_t *)(uintptr_t)address;
}

static bool has_name(uint64_t symbol, const char *name, size_t length) {
    return at(symbol)[0] == length && memcmp(at(symbol) + 1, name, length) == 0;
}

/* The place of the symbol of a name; else one that is empty; else PLACES. */
static size_t place_of(const char *name, size_t length) {
    size_t empty = PLACES;
    for (size_t k = 0; k < PLACES; k++) {
        if (table[k] == 0) {
            empty = k;
        } else if (has_name(table[k], name, length)) {
            return k;
        }
    }
    return empty;
}

/* The collector reads neither the symbol nor the table, so writing to them by pointers owes no telling. */
static void make_symbol(size_t place, const char *name, size_t length) {
    uint64_t symbol = 0;
    must(mpheap_alloc_pointer_free_base(&heap, me, SYMBOL, 1 + (length + 7) / 8, &symbol));
    at(symbol)[0] = length;
    memcpy(at(symbol) + 1, name, length);
    table[place] = symbol;
    must(mpheap_link(&heap, me, TABLE, place, SYMBOL));
    made++;
}

static void collect(void) {
    uint64_t count = 0;
    must(mpheap_set(&heap, me, SYMBOL, 0));
    must(mpheap_collect(&heap, &count));
    gone += (unsigned)count;
}

/* The symbol of a name. It is kept until the next collection, and as long as it is in use. */
static uint64_t intern(const char *name, size_t length) {
    size_t place = place_of(name, length);
    if (place == PLACES) {
        collect();
        place = place_of(name, length);
    }
    if (table[place] == 0) make_symbol(place, name, length);
    return table[place];
}

static void use(uint64_t symbol) {
    must(mpheap_set(&heap, me, SYMBOL, symbol));
    must(mpheap_gput(&heap, me, (uint8_t)(words_read++ % IN_USE), SYMBOL));
}

/* The next word of the text, of letters alone. Answers its length, or 0 at the end. */
static size_t next_word(char *name) {
    size_t length = 0;
    int read;
    while ((read = getchar()) != EOF && (isalpha(read) || length == 0))
        if (isalpha(read) && length < LONGEST) name[length++] = (char)read;
    return length;
}

static unsigned in_table(void) {
    unsigned count = 0;
    for (size_t k = 0; k < PLACES; k++) count += table[k] != 0;
    return count;
}

int main(void) {
    char name[LONGEST];
    uint64_t base = 0;
    must(mpheap_open_mapped(PAGES, &heap));
    must(mpheap_attach(&heap, &me));
    must(mpheap_alloc_pointer_free_base(&heap, me, TABLE, PLACES, &base));
    table = at(base);
    for (size_t length; (length = next_word(name)) != 0;) use(intern(name, length));
    printf("%u words were read, and %u symbols made\n", words_read, made);
    printf("%u symbols had gone, and %u are in the table\n", gone, in_table());
    collect();
    printf("in use, of the last %d words, are %u:\n", IN_USE, in_table());
    for (size_t k = 0; k < PLACES; k++)
        if (table[k] != 0) printf("  %.*s\n", (int)at(table[k])[0], (const char *)(at(table[k]) + 1));
    mpheap_close(&heap);
    return 0;
}
