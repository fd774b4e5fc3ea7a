/* What c/memory.c knows of memory that a caller lends (mpheap_use_memory). */
#ifndef MPHEAP_LENT_H
#define MPHEAP_LENT_H
#include <stdbool.h>
#include <stddef.h>

/* Whether the calls of this thread use lent memory. The others are for a thread that does. */
bool mpheap_is_lent(void);

/* So many bytes, aligned to 16; or null, where the memory is full. */
void *mpheap_ask_lent(size_t bytes);

/* The same with the first bytes of what was asked for there, which is given back; or null, and nothing has changed. */
void *mpheap_grow_lent(void *at, size_t kept, size_t bytes);

/* So many bytes of what was asked for become 0 with no write to most of them, or nothing has changed: where the memory is mapped and the
 * kernel takes whole pages of it. */
bool mpheap_clear_lent(void *at, size_t bytes);

/* What was asked for is given back, to the memory or, when that is used no longer, to malloc, which it came from. */
void mpheap_give_back_lent(void *at);
#endif
