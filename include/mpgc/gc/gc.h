/* For programs that say <gc/gc.h>. */
#include "../gc.h"
