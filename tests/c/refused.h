/* For the test of refused memory, c/memory.c is compiled with its requests renamed to these. */
#ifndef REFUSED_H
#define REFUSED_H
#ifndef _GNU_SOURCE
#define _GNU_SOURCE
#endif
#include <stdlib.h>
#include <sys/mman.h>
void *asked_malloc(size_t bytes);
void *asked_calloc(size_t count, size_t bytes);
void *asked_realloc(void *at, size_t bytes);
void asked_free(void *at);
void *asked_mmap(void *at, size_t bytes, int protection, int flags, int file, off_t offset);
int asked_munmap(void *at, size_t bytes);
#ifndef ASKS
#define malloc asked_malloc
#define calloc asked_calloc
#define realloc asked_realloc
#define free asked_free
#define mmap asked_mmap
#define munmap asked_munmap
#endif
#endif
