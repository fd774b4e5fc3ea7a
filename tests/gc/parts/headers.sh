# shellcheck shell=bash disable=SC2154 # (tests/gc.sh has the other names, and reads this)
# Part of tests/gc.sh: bdwgc's headers, each by itself in C and in C++, and that they declare what bdwgc's own ones do.

# header LINE: of a name and the words of a compiler, by which it is compiled without a warning.
header() {
    local words
    read -ra words <<<"$1"
    printf '#include <%s>\nint main(void);\n' "${words[0]}" | "${words[@]:1}" "${warnings[@]}" "-I$top/include/mpgc" -fsyntax-only -
}
headers=()
for file in gc.h gc/gc.h gc/gc_version.h gc/gc_config_macros.h gc/gc_init.h gc/gc_pthread_redirects.h gc/gc_mark.h gc/gc_typed.h gc/gc_gcj.h \
    gc/gc_disclaim.h gc/gc_tiny_fl.h gc/gc_inline.h gc/javaxfc.h gc/leak_detector.h; do
    for words in -std=c99 "-std=c11 -DGC_THREADS -DGC_DEBUG"; do headers+=("$file cc -x c $words"); done
done
if command -v c++ >"$room/said"; then
    for file in gc.h gc_cpp.h gc/gc_cpp.h gc/gc_allocator.h gc/gc_mark.h gc/gc_inline.h gc/javaxfc.h; do
        for words in -std=c++98 "-std=c++11 -DGC_THREADS -DGC_DEBUG -DGC_NAMESPACE" "-std=c++20 -DGC_NAME_CONFLICT -DGC_ATOMIC_UNCOLLECTABLE"; do
            headers+=("$file c++ -x c++ $words")
        done
    done
else
    skip c++ "the headers in C++"
fi
each "is compiled" header "${headers[@]}"

# What they declare is there.
printf '#define GC_THREADS\n' >"$room/all.c"
printf '#include <gc/%s.h>\n' gc gc_mark gc_typed gc_gcj gc_disclaim gc_inline javaxfc >>"$room/all.c"
# declared FOLDER: the names that these headers declare.
declared() { cc -E -P "-I$1" "$room/all.c" | grep -oE '\bGC_[A-Za-z0-9_]+' | sort -u; }
# defined FOLDER: the macros that they define.
defined() { cc -E -dM "-I$1" "$room/all.c" | awk '{print $2}' | sed 's/(.*//' | grep -E '^(GC|HIDE|REVEAL)' | sort -u; }
cc -E -P "-I$top/include/mpgc" "$room/all.c" | grep -oE '(\bGC_[a-z_0-9]+ *\(|\bextern [^();]*[ *]GC_[A-Za-z_]+;)' | grep -oE 'GC_[A-Za-z_0-9]+' | sort -u >"$room/declared"
is "what the headers declare and the library lacks" "" "$(comm -23 "$room/declared" "$room/names")"
if [ -e /usr/include/gc/gc_mark.h ]; then
    is "names that bdwgc's headers have alone" "GC_print_trace GC_print_trace_inner GC_win32_free_heap" \
        "$(comm -23 <(declared /usr/include) <(declared "$top/include/mpgc") | paste -sd ' ')"
    is "macros that they have alone" "GC_CAN_SAVE_CALL_STACKS GC_HAVE_BUILTIN_BACKTRACE" \
        "$(comm -23 <(defined /usr/include) <(defined "$top/include/mpgc") | grep -v '^GC_INIT_CONF_\|^GC_FAST_M_AO_STORE$' | paste -sd ' ')"
else
    skip libgc-dev "the names and macros of its headers"
fi
