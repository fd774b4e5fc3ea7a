# shellcheck shell=bash disable=SC2154 # (tests/gc.sh has the other names, and reads this)
# Part of tests/gc.sh: what the library exports, what its files reach of one another, and the lines of code that documents name.

# All names of bdwgc: of 8.2.2, and of what is here.
nm -D --defined-only "$room/libmpgc.so" | awk '{print $3}' | sort >"$room/names"
comm -23 "$top/tests/gc/names_of_bdwgc" "$room/names" >"$room/missing"
is "names of bdwgc 8.2.2" "" "$(cat "$room/missing")"
bdw=$(ldconfig -p | awk '/libgc\.so\.1 / {print $NF; exit}')
if [ -n "$bdw" ]; then
    nm -D --defined-only "$bdw" | awk '$3 ~ /^GC_/ {print $3}' | sort | comm -23 - "$room/names" >"$room/missing"
    is "names of libgc.so.1" "" "$(cat "$room/missing")"
else
    skip libgc1 "its names, but for the list of those of 8.2.2"
fi

# Who asks the loader where thread-local data is may wait for a thread that is stopped while it loads an object.
is "what is thread-local is found without the loader" "" "$(nm -u "$room/libmpgc.so" | grep -o __tls_get_addr)"

# The names and the wrapped functions reach no more of the layer than front.h declares, and the compiler refuses them what could lose an
# object.
grep -oh '\bmpgc_[a-z_]*' "$top/gc/front.h" "$top/gc/names/asked.h" | sort -u >"$room/asked"
grep -oh '\bmpgc_[a-z_]*' "$top"/gc/front.h "$top"/gc/names/*.h | sort -u >"$room/front"
mkdir "$room/reaching"
reach() { cc -std=c11 -O1 -fPIC -fvisibility=hidden -c "$1" -o "$room/reaching/$(basename "$1" .c).o"; }
each "is compiled without the core" reach "$top"/gc/names/*.c "$top"/gc/kernel/*.c
for file in "$room"/reaching/*.o; do
    is "what $(basename "$file") reaches" "" "$(nm -u "$file" | awk '{print $2}' | grep '^mpgc\|^mpheap' | sort | comm -23 - "$room/front")"
done
# And the audited files rest on nothing of theirs but what asked.h declares, which does no more.
is "what asked.h has besides declarations" "" "$(grep -vE '^(//.*|HIDDEN [^{}#]*;|struct figures \{|    (uint64_t|size_t|unsigned long|double) [a-z_, ]*; *(//.*)?|\};)?$' \
    "$top/gc/names/asked.h")"
mkdir "$room/audited" "$room/others"
compile() {
    local part=others
    [ "$(dirname "$1")" != "$top/gc" ] || part=audited
    cc -std=c11 -O1 -fPIC -fvisibility=hidden "-I$include" -c "$1" -o "$room/$part/$(basename "$1" .c).o"
}
each "is compiled" compile "$top"/gc/*.c "$top"/gc/names/*.c "$top"/gc/kernel/*.c
nm --defined-only "$room"/others/*.o | awk 'NF == 3 && $2 ~ /[TDBRC]/ {print $3}' | sort -u >"$room/theirs"
# (linked.c means the C library's functions of threads, which libmpgc.a leaves alone.)
is "what the audited files ask" \
    "GC_gc_no GC_get_abort_func GC_non_gc_bytes GC_on_heap_resize pthread_create pthread_detach pthread_exit pthread_join" \
    "$(nm -u "$room"/audited/*.o | awk 'NF == 2 {print $2}' | sort -u | comm -12 - "$room/theirs" | comm -23 - "$room/asked" | paste -sd ' ')"
# answered LINE: whether the compiler takes the line in a file of names.
answered() {
    if printf '#include "../front.h"\n%s\n' "$1" | cc -std=c11 -fsyntax-only "-I$top/gc/names" -x c - 2>"$room/said"; then
        echo taken
    else
        echo refused
    fi
}
is "a line in a file of names" taken "$(answered 'void go(void) { GC_gcollect(); }')"
for line in '#include "../layer.h"' '#include "mpheap.h"' 'void *go(void) { return &mpgc; }' 'void go(void *p) { GC_free(p); }' \
    'void *go(void *p) { return GC_realloc(p, 9); }' 'void go(void) { GC_stackbottom = 0; }' 'void go(void) { GC_no_dls = 1; }' \
    'void go(void) { GC_all_interior_pointers = 0; }' 'void go(void *p) { GC_remove_roots(p, p); }' 'void go(void) { GC_clear_roots(); }' \
    'void go(void **p) { GC_unregister_disappearing_link(p); }'; do
    is "in a file of names: $line" refused "$(answered "$line")"
done

# The lines of code that are named: of the audited files, of the names, and of the wrapped functions.
# named FILE TEXT: the number of lines behind the text. code FILES..: how many they have, but for blank ones and comments.
named() { sed -n "s/.*$2 \([0-9,]*\) lines.*/\1/p" "$1" | tr -d ,; }
code() { cat "$@" | grep -cvE '^ *(//.*)?$'; }
is "lines that layer.h names" "$(code "$top"/gc/*.[ch])" "$(named "$top/gc/layer.h" 'break memory:')"
is "audited lines" "$(code "$top"/gc/*.[ch])" "$(named "$top/docs/PROGRAMS.md" '\*\*audited\*\*,')"
is "audited lines by what they are there for" "$("$top/gc/counts")" "$(grep -oE '\| [^|]* \| [0-9]+ \|$' "$top/docs/PROGRAMS.md")"
is "lines of names" "$(code "$top"/gc/names/*)" "$(named "$top/docs/PROGRAMS.md" '\*\*names\*\*,')"
is "lines of wrapped functions" "$(code "$top"/gc/kernel/*)" "$(named "$top/docs/PROGRAMS.md" '\*\*wrapped functions of the C library\*\*,')"
