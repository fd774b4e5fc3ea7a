// What is due is done, and what the program asks for: collections that it may break off, and steps. Each is a call that anyone may make.
#include "paced.h"
#include <sys/syscall.h>
#include <time.h>
#include <unistd.h>

// The cycle that marks ends, if there is one, or the program breaks it off: then it stands, and the next collection goes on with it.
static bool end_unless(GC_stop_func stop)
{
    enum { WORDS = 4 * PAGE / WORD };
    bool is_broken_off = false;
    while (mpgc_is_marking() && !(is_broken_off = stop())) mpgc_step(WORDS);
    if (!GC_is_incremental_mode()) mpgc_leave_open();
    return !is_broken_off;
}

// A cycle begins at once, as far as the roots.
static void begin_cycle(void)
{
    mpgc_skip_sweeping();
    while (!mpgc_roots_are_read()) mpgc_step(0);
}

// What a cycle has marked that stood before is kept by that one, so another one begins when it has ended.
static bool collect_unless(GC_stop_func stop)
{
    if (GC_dont_gc || (stop && stop())) return false;
    if (!stop || mpgc_holds_threads_back()) {
        mpgc_marks_begin();
        mpgc_collect();
        return true;
    }
    if (!end_unless(stop)) return false;
    begin_cycle();
    return end_unless(stop);
}

// Who asks for one behind the other has the lock again before those have it that wait for it, and stops the others again before they have gone
// on: so they are let run first, for as long as the last one took. The lock is held, and given back meanwhile.
static double ended_at, took;

static void let_others_run(void)
{
    enum { MOST = 1000 };  // microseconds
    double rest = ended_at + took - mpgc_now();
    struct timespec moment = { 0, (long)(rest < MOST ? rest : MOST) * 1000 };
    if (rest <= 0 || mpgc_is_last_thread()) return;
    GC_alloc_unlock();
    if (!mpgc_has_lock()) {
        mpgc_give_way();
        if (!mpgc_stops_nobody()) mpgc_call_kernel(SYS_nanosleep, &moment, NULL);
    }
    GC_alloc_lock();
}

// A collection that the program may break off, by this function, if there is one.
bool mpgc_collect_unless(GC_stop_func stop)
{
    GC_init();
    GC_alloc_lock();
    let_others_run();
    double start = mpgc_now();
    bool answer = collect_unless(stop);
    ended_at = mpgc_now();
    took = ended_at - start;
    GC_alloc_unlock();
    mpgc_tell_ready();
    return answer;
}

void mpgc_start_cycle(void)
{
    GC_alloc_lock();
    if (!mpgc_is_marking()) begin_cycle();
    GC_alloc_unlock();
}

// What the last collection left to do is done, in part. Answers whether there was some.
bool mpgc_tidy(void)
{
    enum { SWEPT = 4 };
    bool has_opened = mpgc_open_some(), has_swept = mpgc_sweep_some(SWEPT);
    return has_opened || has_swept;
}

// The words of a step. Where it stops other threads, which takes as long as some thousands, it is of more.
static uint64_t words_of_step(void)
{
    enum { ALONE = 1024, STOPPING = 8192 };
    return mpgc_is_last_thread() ? ALONE : STOPPING;
}

// Who asks for so much that the others are stopped again and again lets those go on first that haven't since, but for no longer than a moment.
static void let_others_go_on(void)
{
    enum { LOOKS = 20 };
    static const struct timespec moment = { 0, 50000 };
    for (int k = 0; k < LOOKS && mpgc_is_one_standing(); k++) mpgc_call_kernel(SYS_nanosleep, &moment, NULL);
}

// A request makes a step, and a large one more of them: another for as many words asked for since the last. But no more than it can wait for.
static void make_steps(void)
{
    enum { WORDS = 1024, MOST = 64 };
    static uint64_t seen;
    uint64_t since = mpgc_figures.since, more = since > seen ? (since - seen) / WORDS : 0;
    if (more > MOST) more = MOST;
    seen = since;
    let_others_go_on();
    mpgc_step(words_of_step());
    for (; more > 0 && mpgc_is_in_cycle(); more--) mpgc_step(words_of_step());
}

// What is due is done, by a request; or as the program asked for it.
bool mpgc_look(bool is_asked)
{
    switch (mpgc_due(is_asked)) {
    case NOTHING: break;
    case TIDYING: mpgc_tidied(mpgc_tidy()); break;
    case WAKE:
        if (mpgc_wake_collector(true)) break;
        mpgc_step(words_of_step());
        break;
    case STEP:
        if (is_asked)
            mpgc_step(words_of_step());
        else
            make_steps();
        break;
    case COLLECTION:
        let_others_go_on();
        (void)collect_unless(mpgc_stop_func());
        break;
    }
    return mpgc_is_in_cycle();
}

int GC_collect_a_little(void)
{
    GC_init();
    GC_alloc_lock();
    bool answer = mpgc_look(true);
    GC_alloc_unlock();
    mpgc_tell_ready();
    return answer;
}
