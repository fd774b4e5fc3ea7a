// Copies of texts, in atomic objects. It makes requests as a program does.
#define GC_REQUIRE_WCSDUP
#include "../front.h"
#include <errno.h>
#include <string.h>

static char *copy_text(const char *text, size_t bytes)
{
    char *copy = GC_malloc_atomic(bytes + 1);
    if (!copy) {
        errno = ENOMEM;
        return NULL;
    }
    memcpy(copy, text, bytes);
    copy[bytes] = 0;
    return copy;
}

char *GC_strdup(const char *text) { return text ? copy_text(text, strlen(text)) : NULL; }

char *GC_strndup(const char *text, size_t most) { return copy_text(text, strnlen(text, most)); }

wchar_t *GC_wcsdup(const wchar_t *text)
{
    size_t bytes = (wcslen(text) + 1) * sizeof *text;
    wchar_t *copy = GC_malloc_atomic(bytes);
    if (copy)
        memcpy(copy, text, bytes);
    else
        errno = ENOMEM;
    return copy;
}
