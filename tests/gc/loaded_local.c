/* An object to be loaded: a place of thread-local data, and enough of it to lie outside of what each thread has at its start, or much more. */
#ifndef ROOM
#define ROOM 3000
#endif
void **thread_place(void);
static _Thread_local struct { char room[ROOM]; void *place; } local;
void **thread_place(void) { return &local.place; }
