# shellcheck shell=bash
# Tests that are programs or scripts of their own, as suites of judged.sh. Of guile (test-suite/standalone): scripts by the guile that is
# installed, and programs and libraries of C, which are compiled; one that ends by another status than 0, or 77 where it can't be tried, is a
# failure. Of lepton-eda: its unit tests by guile, which loads its library.

# compiled FLAGS..: what is of C.
compiled() {
    local file libraries
    read -ra libraries <<<"$(pkg-config --libs guile-3.0) -lgc -lpthread -lm"
    for file in test-*-lib.c; do
        guile-snarf -o "${file%.c}.x" "$file" "$@" && gcc -shared -fPIC "$@" "$file" -o "lib${file%-lib.c}.so" "${libraries[@]}"
    done
    for file in test-*.c; do
        [[ $file = *-lib.c ]] || gcc "$@" "$file" -o "${file%.c}" "${libraries[@]}"
    done
}

guile_standalone_suite() {
    local flags file tests ended
    cp -r "$2/test-suite/standalone/." .
    printf '#!/bin/sh\nexec /usr/lib/x86_64-linux-gnu/guile/3.0/bin/guile "$@"\n' >guile
    for file in *.in; do sed 's/@[a-z_]*srcdir@/./g; s/@installed_guile@/guile/g' "$file" >"${file%.in}"; done
    read -ra flags <<<"-w -O2 -I. -include string.h -include stdlib.h $(pkg-config --cflags guile-3.0)"
    export PATH=$PWD:$PATH builddir=. srcdir=. top_srcdir=.. GUILE_AUTO_COMPILE=0 GUILE_LOAD_PATH=$PWD LD_LIBRARY_PATH=$PWD
    chmod +x guile
    compiled "${flags[@]}" >"$1.compiled" 2>&1
    # shellcheck disable=SC2086 # (a pattern)
    mapfile -t tests < <(printf '%s\n' ./test-${FILES:-*} | sed 's/[.]c$//; s/[.]in$//' | grep -v '[.].*[.]\|-lib$' | sort -u)
    : >"$1.said"
    for file in "${tests[@]}"; do
        [ ! -e "$file" ] || chmod +x "$file"
        over "$3" 30 "$file" </dev/null >>"$1.said" 2>&1
        ended=$?
        [ $ended = 0 ] || [ $ended = 77 ] || echo "$(basename "$file"):$ended"
    done >"$1.failing"
    echo "${#tests[@]}" >"$1.count"
}

lepton_suite() {
    local file name ended
    mkdir src scheme
    ln -s /usr/lib/x86_64-linux-gnu/liblepton.so.?? src/liblepton.so
    export GUILE_AUTO_COMPILE=0 abs_top_srcdir=$2 abs_top_builddir=$PWD
    cd scheme || return
    : >"$1.said"
    for file in "$2"/liblepton/scheme/unit-tests/${FILES:-*}.scm; do
        name=$(basename "$file" .scm)
        over "$3" 30 /usr/lib/x86_64-linux-gnu/guile/3.0/bin/guile -L /usr/share/lepton-eda/scheme -L "$2/utils/netlist/scheme" --no-auto-compile \
            -e main/with-toplevel -s "$2/liblepton/scheme/unit-test.scm" --test-name "$file" --log-file "$name.log" --trs-file "$name.trs" \
            --color-tests no --enable-hard-errors yes --expect-failure no -- "$file" </dev/null >>"$1.said" 2>&1
        ended=$?
        [ $ended = 0 ] || echo "$name:ended_by_$ended"
        grep -s ':test-result: \(FAIL\|XPASS\|ERROR\)' "$name.trs" | sed "s/^:test-result: /$name:/" | tr ' ' _
    done >"$1.failing"
    cat ./*.trs | grep -c ':test-result: ' >"$1.count"
}
