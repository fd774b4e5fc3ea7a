// What the names' files know of each other that wait for objects to go: finalizers, toggle references, objects of kinds that are asked,
// leaks, and pages that are given back.
#ifndef MPGC_AWAITED_H
#define MPGC_AWAITED_H
#include "../front.h"
#include <stdarg.h>

// toggles.c
HIDDEN bool mpgc_has_toggled(void);
HIDDEN void mpgc_ask_toggled(void);
HIDDEN void mpgc_drop_toggled(void);

// disclaimed.c
HIDDEN bool mpgc_has_disclaimed(void);
HIDDEN void *mpgc_note_disclaimed(void *object, int kind);
HIDDEN void mpgc_call_disclaimed(void);
HIDDEN void mpgc_forget_disclaimed(uintptr_t base);

// leaks.c
HIDDEN void *mpgc_note_place(void *object, size_t bytes, va_list where);
HIDDEN void mpgc_forget_place(uintptr_t base);
HIDDEN void mpgc_find_leaks(void);
HIDDEN void mpgc_tell_leaks(void);
HIDDEN void mpgc_look_at_exit(void);

// unmap.c
HIDDEN void mpgc_age_free_pages(void);
HIDDEN bool mpgc_give_back_some(void);
HIDDEN void mpgc_unmap(bool is_asked);
HIDDEN void mpgc_read_unmapping(void);

// parallel.c
HIDDEN void mpgc_read_markers(void);

// others.c
SHOWN void GC_enumerate_reachable_objects_inner(void (*tell)(void *object, size_t bytes, void *data), void *data);

#endif
