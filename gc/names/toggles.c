// Toggle references: before a collection a function of the program says of each of these objects whether it is to stay, may go, or isn't
// to be asked for any more. Those that stay are marked at the cycle's end. Of a cycle in small steps it is asked when that begins and once more
// before its end, since an object may have become one that stays meanwhile.
#include "awaited.h"
#include "locked.h"

enum { DROPPED };  // hides no object
static struct toggled { GC_hidden_pointer hidden; bool is_strong; } *all;
static size_t count, room;
static GC_toggleref_func ask;
static volatile unsigned asking;  // so many walks are under way, one in the middle of the other

bool mpgc_has_toggled(void) { return count > 0; }

// A collection begins, or ends, and other threads still run. The function, or a handler, may collect, so that others are asked and go: but none
// stands elsewhere before this walk is over.
void mpgc_ask_toggled(void)
{
    asking++;
    for (size_t k = 0; ask && k < count; k++) {
        GC_hidden_pointer hidden = all[k].hidden;
        if (hidden == DROPPED) continue;
        GC_ToggleRefStatus said = ask(GC_REVEAL_POINTER(hidden));
        if (said == GC_TOGGLE_REF_DROP) all[k].hidden = DROPPED;
        all[k].is_strong = said == GC_TOGGLE_REF_STRONG;
    }
    asking--;
}

void mpgc_mark_toggled(void)
{
    for (size_t k = 0; k < count; k++)
        if (all[k].is_strong) mpgc_mark_from(~all[k].hidden);
}

// A cycle has ended: what was dropped, or has gone, isn't asked for again.
void mpgc_drop_toggled(void)
{
    size_t left = 0, words;
    uintptr_t base;
    for (size_t k = 0; k < count; k++) {
        bool stays = mpgc_find(~all[k].hidden, &base, &words);
        if (!stays) all[k].hidden = DROPPED;
        if (stays || asking > 0) all[left++] = all[k];
    }
    count = left;
}

static int add(const void *object, bool is_strong)
{
    if (count == room) {
        struct toggled *larger = mpgc_memory(all, (2 * room + 16) * sizeof *all);
        if (!larger) return GC_NO_MEMORY;
        all = larger;
        room = 2 * room + 16;
    }
    all[count++] = (struct toggled){ GC_HIDE_POINTER(object), is_strong };
    return GC_SUCCESS;
}

int GC_toggleref_add(void *object, int is_strong)
{
    GC_alloc_lock();
    int answer = ask ? add(object, is_strong != 0) : GC_SUCCESS;
    GC_alloc_unlock();
    return answer;
}

LOCKED_SETTING(GC_toggleref_func, ask, GC_set_toggleref_func, GC_get_toggleref_func)
