# shellcheck shell=bash disable=SC2154 # (tests/gc.sh has the other names, and reads this)
# Part of tests/gc.sh: under ThreadSanitizer, races of the layer's own knowledge. gc/races.h says how threads are stopped there. Of the
# wrapped functions only those stand beside it that it doesn't call itself before it has begun.

races=(-fsanitize=thread -g)
if printf '#ifndef __SANITIZE_THREAD__\n#error another one\n#endif\nint main(void) { return 0; }\n' |
    cc "${races[@]}" -x c - -o "$room/sanitized" 2>"$room/said" && "$room/sanitized" 2>"$room/said"; then
    build "$room/races" "${races[@]}"
    for file in syscalls syscalls_threads; do
        cc -std=c11 -O1 -fvisibility=hidden "${races[@]}" -c "$top/gc/kernel/$file.c" -o "$room/races/$file.o"
    done
    for test in threads together collector marking finalizers; do
        "${c[@]}" "${races[@]}" "$top/tests/gc/$test.c" "$room"/races/syscalls*.o "$room/races/libmpgc.a" -pthread -o "$room/races/$test" \
            2>"$room/said"
        is "$test is built to look for races" "" "$(cat "$room/said")"
    done
    export TSAN_OPTIONS=die_after_fork=0
    for setting in FULL INCREMENTAL GC_COLLECTOR_THREAD; do
        shadow "races of threads, $setting" env GC_FREE_SPACE_DIVISOR=60 $setting=1 "$room/races/threads" 3 3
        counted "races of together, $setting" env $setting=1 "$room/races/together" 4 3
    done
    counted "races of collector" "$room/races/collector" 1
    counted "races of marking" env GC_MARKERS=4 "$room/races/marking" 2
    counted "races of finalizers, beside the collector's thread" env GC_COLLECTOR_THREAD=1 "$room/races/finalizers"
    unset TSAN_OPTIONS
else
    skip "GCC's ThreadSanitizer, that starts here" "races of the layer"
fi
