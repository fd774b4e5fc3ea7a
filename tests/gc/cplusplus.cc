// C++ over libmpgc: classes and placements of gc_cpp.h, allocators of gc_allocator.h, and the plain `new` of libmpgccpp. The same source runs
// over bdwgc with its own headers and libgccpp, where that is installed.
#include <gc_cpp.h>
#include <gc/gc_allocator.h>
#include <gc/gc_mark.h>
#include <atomic>
#include <list>
#include <map>
#include <stdexcept>
#include <thread>
#include <vector>
#include "check.h"

static const int MANY = 400;
static int destroyed, cleaned, apart;

// Over bdwgc the kinds of pointer-free and other objects have the same numbers.
static const int POINTER_FREE = 0, READ = 1;
static int kind_of(const void *object) { return GC_get_kind_and_size(GC_base(const_cast<void *>(object)), 0); }

struct Pair : gc {
    Pair *next;
    long word;
    explicit Pair(Pair *p = 0, long w = 0) : next(p), word(w) {}
};
struct Cleaned : gc_cleanup {
    long word;
    explicit Cleaned(long w) : word(w) {}
    ~Cleaned() { destroyed++; }
};
struct Before { long first[5]; };
struct Second : Before, Cleaned { // its part that is cleaned up lies behind its beginning
    explicit Second(long w) : Cleaned(w) { first[0] = w; }
    ~Second() { apart += first[0] == word; }
};
struct Throws : gc {
    long words[4];
    Throws() { throw std::runtime_error("no object"); }
};

static void at_end(void *object, void *data) { cleaned += *static_cast<long *>(object) == reinterpret_cast<long>(data); }

// Overwrites what of the stack the calls above may have left.
static __attribute__((noinline)) void forget()
{
    volatile char room[20000];
    for (size_t k = 0; k < sizeof room; k++) room[k] = 0;
}
static void collect()
{
    for (int k = 0; k < 4; k++) {
        forget();
        GC_gcollect();
        GC_invoke_finalizers();
    }
}

static __attribute__((noinline)) void make_many()
{
    for (long k = 0; k < MANY; k++) {
        new Cleaned(k);
        new Second(k);
        long *word = new (GC, at_end, reinterpret_cast<void *>(k)) long;
        *word = k;
    }
}

static void classes()
{
    Pair *list = 0;
    for (long k = 0; k < 10000; k++) list = new Pair(list, k);
    make_many();
    collect();
    CHECK(destroyed > 2 * MANY * 9 / 10 && destroyed <= 2 * MANY);
    CHECK(apart > MANY * 9 / 10 && apart <= MANY);
    CHECK(cleaned > MANY * 9 / 10 && cleaned <= MANY);
    long sum = 0;
    for (Pair *p = list; p; p = p->next) sum += p->word;
    CHECK(sum == 49995000);
    CHECK(kind_of(list) == READ && GC_size(list) >= sizeof(Pair));
    int so_far = destroyed;
    delete new Cleaned(1);
    CHECK(destroyed == so_far + 1);
    Cleaned here(2); // no object of the heap
    CHECK(GC_base(&here) == 0);
    alignas(Pair) char room[sizeof(Pair)];
    CHECK(static_cast<void *>(new (room) Pair) == room);
    Pair *row = new Pair[10];
    CHECK(row && GC_base(row + 9) == GC_base(row));
    delete[] row;
}

static void throwing()
{
    int caught = 0;
    for (int k = 0; k < 100; k++) {
        try {
            new Throws;
        } catch (const std::runtime_error &) {
            caught++;
        }
        try {
            new (NoGC) Throws;
        } catch (const std::runtime_error &) {
            caught++;
        }
    }
    CHECK(caught == 200);
}

// Each of the words that are hidden here stands for an object that something else may keep.
static GC_hidden_pointer hidden[3];
static void *weak[3];
static __attribute__((noinline)) void hide(void **read, void **unread, void **uncollected)
{
    void **at[3] = { read, unread, uncollected };
    for (int k = 0; k < 3; k++) {
        void *object = new (GC) long[8];
        hidden[k] = GC_HIDE_POINTER(object);
        weak[k] = object;
        GC_general_register_disappearing_link(&weak[k], object);
        *at[k] = object;
    }
}

static void placements()
{
    static void **read, **unread, **uncollected;
    read = new (GC) void *[4];
    unread = new (PointerFreeGC) void *[4];
    uncollected = new (NoGC) void *[4];
    CHECK(kind_of(read) == READ && kind_of(unread) == POINTER_FREE);
    GC_hidden_pointer only = GC_HIDE_POINTER(uncollected);
    hide(read, unread, uncollected);
    GC_exclude_static_roots(weak, weak + 3);
    uncollected = 0;
    collect();
    CHECK(weak[0] == GC_REVEAL_POINTER(hidden[0]));
    CHECK(weak[1] == 0);
    CHECK(weak[2] == GC_REVEAL_POINTER(hidden[2]));
    uncollected = static_cast<void **>(GC_REVEAL_POINTER(only));
    CHECK(*uncollected == weak[2]);
    Pair *pair = new (NoGC) Pair(0, 7);
    CHECK(pair->word == 7);
    delete pair;
}

template <class Container> static bool holds(const Container &numbers)
{
    long sum = 0;
    for (typename Container::const_iterator k = numbers.begin(); k != numbers.end(); ++k) sum += (*k)->word;
    return sum == 1000L * 999 / 2;
}

static void allocators()
{
    typedef std::list<Pair *, traceable_allocator<Pair *> > Elsewhere;
    Elsewhere *list = ::new (malloc(sizeof(Elsewhere))) Elsewhere; // memory that isn't read
    GC_hidden_pointer at = GC_HIDE_POINTER(list);
    std::vector<Pair *, gc_allocator<Pair *> > row;
    std::map<long, Pair *, std::less<long>, gc_allocator<std::pair<const long, Pair *> > > table;
    for (long k = 0; k < 1000; k++) {
        list->push_back(new Pair(0, k));
        row.push_back(new Pair(0, k));
        table[k] = new Pair(0, k);
    }
    list = 0;
    collect();
    for (int k = 0; k < 100000; k++) new Pair(0, -1);
    collect();
    list = static_cast<Elsewhere *>(GC_REVEAL_POINTER(at));
    CHECK(holds(*list) && holds(row));
    bool is_there = true;
    for (long k = 0; k < 1000; k++) is_there = is_there && table[k]->word == k;
    CHECK(is_there);
    std::vector<int, gc_allocator<int> > numbers(100000, 3);
    std::vector<int, gc_allocator_ignore_off_page<int> > others(100000, 4);
    CHECK(kind_of(&numbers[0]) == POINTER_FREE && kind_of(&others[0]) == POINTER_FREE && kind_of(&row[0]) == READ);
    CHECK(numbers[99999] == 3 && others[99999] == 4);
    CHECK(gc_allocator<int>() == gc_allocator<long>() && !(traceable_allocator<int>() != traceable_allocator<long>()));
#ifndef OTHER // (which multiplies past the end)
    bool is_refused = false;
    try {
        gc_allocator<Pair>().allocate(gc_allocator<Pair>().max_size() + 2);
    } catch (const std::bad_alloc &) {
        is_refused = true;
    }
    CHECK(is_refused);
#endif
}

// In a program that is linked with libmpgccpp.
static void plain()
{
    void **kept = new void *[100];
    CHECK(GC_base(kept) == kept);
    void *unused[2] = { 0, 0 };
    hide(kept, &unused[0], &unused[1]);
    GC_hidden_pointer at = GC_HIDE_POINTER(kept);
    kept = 0;
    collect();
    CHECK(weak[0] == GC_REVEAL_POINTER(hidden[0]));
    delete[] static_cast<void **>(GC_REVEAL_POINTER(at));
    std::vector<long> numbers;
    for (long k = 0; k < 100000; k++) numbers.push_back(k);
    CHECK(GC_base(&numbers[0]) != 0 && numbers[99999] == 99999);
}

#ifndef OTHER
// A function that blocks is left by an exception: what is made behind it is kept, while another thread collects. Far below where it was blocked.
static std::atomic<int> stage;
static void *throw_one(void *) { throw std::runtime_error("left"); }
static void *throw_deeper(void *)
{
    try {
        GC_call_with_gc_active(throw_one, 0);
    } catch (const std::runtime_error &) {
        GC_call_with_gc_active(throw_one, 0);
    }
    return 0;
}
__attribute__((noinline)) static bool keeps_what_it_makes()
{
    enum { WORDS = 4, FAR = 60000, MANY = 20000 };
    volatile char frame[FAR];
    frame[0] = 1;
    unsigned long *volatile made = static_cast<unsigned long *>(GC_MALLOC(WORDS * sizeof *made));
    for (unsigned long k = 0; k < WORDS; k++) made[k] = k + 12345;
    stage++;
    while (stage % 2) std::this_thread::yield();
    for (int k = 0; k < MANY; k++) memset(GC_MALLOC(WORDS * sizeof *made), 7, WORDS * sizeof *made);
    bool is_right = frame[0] == 1;
    for (unsigned long k = 0; k < WORDS; k++) is_right &= made[k] == k + 12345;
    return is_right;
}
static void left_while_blocked()
{
    int right = 0;
    std::thread one([&right] {
        for (GC_fn_type function : { throw_one, throw_deeper }) {
            try {
                GC_do_blocking(function, 0);
            } catch (const std::runtime_error &) {
                right += keeps_what_it_makes();
            }
        }
    });
    for (int k = 0; k < 2; k++) {
        while (stage % 2 == 0) std::this_thread::yield();
        for (int j = 0; j < 3; j++) GC_gcollect();
        stage++;
    }
    one.join();
    CHECK(right == 2);
}
#else
static void left_while_blocked() {}
#endif

static int full()
{
    GC_set_max_heap_size(4 << 20);
    Pair *list = 0;
    int caught = 0;
    for (int k = 0; k < 3; k++) {
        try {
            for (;;) list = new Pair(list);
        } catch (const std::bad_alloc &) {
            caught++;
        }
    }
    return caught;
}

int main()
{
    GC_INIT()
    if (getenv("INCREMENTAL")) GC_enable_incremental();
    classes();
    throwing();
    placements();
    allocators();
    plain();
    left_while_blocked();
    CHECK(status_of(full) == 3);
    return check_ends();
}
