// Tables of what the layer knows of words and objects, by a number: a hidden address, so that no table keeps anything. Trusted, not proved.
// Counted under roots, links, finalizers and kinds.
#include "layer.h"

// Where the entry with this number is named, or would be.
struct entry **mpgc_place(const struct table *table, uintptr_t number)
{
    static struct entry *none;
    struct entry **at = table->room == 0 ? &none : &table->chains[number / WORD * 0x9E3779B97F4A7C15u >> 20 & (table->room - 1)];
    while (*at && (*at)->number != number) at = &(*at)->next;
    return at;
}

void mpgc_push(struct entry **list, struct entry *one)
{
    one->next = *list;
    *list = one;
}

struct entry *mpgc_pop(struct entry **list)
{
    struct entry *one = *list;
    *list = one->next;
    return one;
}

// Where there is no memory, chains become longer.
static void grow(struct table *table)
{
    struct table larger = { .room = table->room ? 2 * table->room : 64, .count = table->count };
    larger.chains = mpgc_cleared_memory(larger.room, sizeof *larger.chains);
    if (!larger.chains) return;
    for (size_t k = 0; k < table->room; k++) {
        while (table->chains[k]) {
            struct entry *one = mpgc_pop(&table->chains[k]);
            mpgc_push(mpgc_place(&larger, one->number), one);
        }
    }
    mpgc_drop_memory(table->chains);
    *table = larger;
}

// One more, of any table: a request looks whether a collection is due.
void mpgc_count_entry(void)
{
    if (++mpgc_figures.entries > mpgc_figures.most_entries) mpgc_figures.next = 0;
}

// No entry has its number. Answers false, and puts nothing there, where there is no memory for the first.
bool mpgc_put(struct table *table, struct entry *one)
{
    if (table->count >= table->room) grow(table);
    if (table->room == 0) return false;
    mpgc_push(mpgc_place(table, one->number), one);
    table->count++;
    mpgc_count_entry();
    return true;
}

struct entry *mpgc_take(struct table *table, struct entry **at)
{
    table->count--;
    mpgc_figures.entries--;
    return mpgc_pop(at);
}

// Nothing is freed while other threads are stopped, since one of them may have the lock of `malloc`: so it is put on a list, and later this
// is called.
void mpgc_free_all(struct entry **list)
{
    while (*list) mpgc_drop_memory(mpgc_pop(list));
}
