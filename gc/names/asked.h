// What the audited files ask of the others, and rely on in nothing: any answer will do; and the figures. Here a struct of numbers and
// functions are declared, and nothing is defined, which tests/gc.sh looks at: so nothing here changes what an audited file means.
//
// Besides they ask GC_get_abort_func; read GC_on_heap_resize; write GC_gc_no and GC_non_gc_bytes. tests/gc.sh has the list.

// Figures, which everybody may write: whatever they say, no object is lost.
struct figures {
    uint64_t since, total;         // words: asked for since the last collection, and in all
    uint64_t taken, freed;         // words of the objects that were asked for since, and of those that were freed: as they lie, both
    uint64_t next;                 // words asked for at which a request looks what is due
    uint64_t marked, described;    // words of ordinary objects that the last collection has read, and of described ones
    uint64_t roots;                // and of roots: bytes
    size_t entries, most_entries;  // of all tables (table.c), and past how many a request looks what is due
    size_t limit;                  // the most pages that the program lets the heap have
    unsigned long cycles, full, faults, retraces, rounds;
    size_t most_left;              // pages that were dirty at a cycle's end, at most
    double longest_cycle_end, longest_full, full_time;  // microseconds
    unsigned long stops;                                // of other threads, with what their stopping took
    double longest_stop, stop_time, longest_standing;    // the last: from the request to the going on
};
HIDDEN extern struct figures mpgc_figures;

// pacing.c, collections.c, collector.c and beside.c. Whether collections are off; a request does what is due; whether the collector has a
// thread of its own, for which this program isn't made, and this is woken, and is told of a call under the lock.
HIDDEN void mpgc_set_budget(void);
HIDDEN bool mpgc_is_off(void);
HIDDEN bool mpgc_look(bool is_asked);
HIDDEN bool mpgc_is_beside(void);
HIDDEN void mpgc_leave_beside(void);
HIDDEN bool mpgc_wake_collector(bool may_start);
HIDDEN void mpgc_lose_collector(void);
HIDDEN void mpgc_was_called_under_lock(void);

// steps.c
HIDDEN enum piece mpgc_first_piece(void);
HIDDEN size_t mpgc_left_in_batch(void);
HIDDEN enum piece mpgc_piece_after(enum piece piece, uint64_t did, uint64_t *left);
HIDDEN void mpgc_drop_cycle(void);

// figures.c
HIDDEN double mpgc_now(void);
HIDDEN void mpgc_count_collection(bool is_full, double start);
HIDDEN void mpgc_count_stop(double took);
HIDDEN void mpgc_count_standing(double took);

// parallel.c. How many threads are to mark, and have come beside the one that collects; and that the program has a second thread.
HIDDEN unsigned mpgc_wanted_markers(void);
HIDDEN void mpgc_count_markers(unsigned count);
HIDDEN void mpgc_will_be_threaded(void);

// environment.c
HIDDEN void mpgc_read_environment(void);

// kinds.c and disclaimed.c. The kind of an object that is asked before it goes, or -1.
HIDDEN void *mpgc_malloc_kind(size_t bytes, int kind);
HIDDEN int mpgc_disclaimed_kind(uintptr_t base);

// told.c
HIDDEN void mpgc_tell_event(GC_EventType event);
HIDDEN void mpgc_tell_start(void);
HIDDEN bool mpgc_holds_threads_back(void);
HIDDEN void mpgc_tell_end(void);
HIDDEN void *mpgc_out_of_memory(size_t bytes);

// of_threads.c. The thread stops, or goes on.
HIDDEN void mpgc_tell_of_thread(GC_EventType event, pthread_t thread);

// finalizers.c, toggles.c and disclaimed.c, at a cycle's end, while no other thread runs; a request; and what is freed
HIDDEN bool mpgc_has_to_find(void);
HIDDEN void mpgc_mark_toggled(void);
HIDDEN void mpgc_mark_from_disclaimed(void);
HIDDEN void mpgc_find_ready(void);
HIDDEN void mpgc_find_disclaimed(void);
HIDDEN void mpgc_take_ready(void);
HIDDEN void mpgc_tell_ready(void);
HIDDEN void mpgc_forget_finalizer(uintptr_t base);

// ../kernel/masks.c, ../kernel/handlers.c, ../kernel/altstack.c and ../kernel/robust.c
HIDDEN const sigset_t *mpgc_without_faults(const sigset_t *signals, sigset_t *room);
HIDDEN void mpgc_barrier_stands(const struct sigaction *old);
HIDDEN void mpgc_stopper_stands(const struct sigaction *old);
HIDDEN void mpgc_pass_on(int number, siginfo_t *info, void *context);
HIDDEN void mpgc_drop_signals_stack(void);
HIDDEN void mpgc_give_up_mutexes(void);
