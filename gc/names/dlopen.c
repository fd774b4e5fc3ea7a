// A file of its own, since a program that is linked statically is warned of it.
#include "../front.h"
#include <dlfcn.h>

SHOWN void *GC_dlopen(const char *path, int mode);
void *GC_dlopen(const char *path, int mode) { return dlopen(path, mode); }
