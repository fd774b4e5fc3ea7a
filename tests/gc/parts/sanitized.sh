# shellcheck shell=bash disable=SC2154 # (tests/gc.sh has the other names, and reads this)
# Part of tests/gc.sh: under AddressSanitizer and UndefinedBehaviorSanitizer. The stack is read word by word, so frames stay on it.

sanitizers=("-fsanitize=address,undefined" -fno-sanitize-recover=undefined -g)
if echo 'int main(void) { return 0; }' | cc "${sanitizers[@]}" -x c - -o "$room/sanitized" 2>"$room/said" && "$room/sanitized"; then
    build "$room/sane" "${sanitizers[@]}"
    export ASAN_OPTIONS=detect_stack_use_after_return=0:detect_leaks=0:allow_user_segv_handler=1
    "${c[@]}" "${sanitizers[@]}" "$top/tests/gc/shadow.c" "$room/sane/libmpgc.a" -o "$room/sane/shadow" || is "shadow, sanitized" built no
    for setting in FULL INCREMENTAL; do
        shadow "shadow, sanitized, $setting" env $setting=1 "$room/sane/shadow" 4 100000
    done
    unset ASAN_OPTIONS
    # AddressSanitizer has the C library's calls of signals to itself: so what stands round these runs under the other one alone.
    build "$room/undefined" "${sanitizers[@]/address,/}"
    for test in functions limits frees kernel signals barrier; do
        "${c[@]}" -fsanitize=undefined "$top/tests/gc/$test.c" "-L$room/undefined" -lmpgc "-Wl,-rpath,$room/undefined" -pthread \
            -o "$room/undefined/$test" 2>"$room/said" || is "$test, sanitized" built "$(head -n 3 "$room/said")"
        counted "$test, sanitized" "$room/undefined/$test"
    done
else
    skip "a compiler with sanitizers" "the shadow under them"
fi
