// Settings that a program may change while other threads work: set and read under the lock, as bdwgc's documentation says of these.
#ifndef MPGC_LOCKED_H
#define MPGC_LOCKED_H
#include "../front.h"

#define LOCKED_SETTING(type, variable, set, get) \
    void set(type next) \
    { \
        GC_alloc_lock(); \
        variable = next; \
        GC_alloc_unlock(); \
    } \
    type get(void) \
    { \
        GC_alloc_lock(); \
        type now = variable; \
        GC_alloc_unlock(); \
        return now; \
    }

#endif
