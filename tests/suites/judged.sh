# shellcheck shell=bash
# Suites whose tests say themselves whether they fail. Each function is called as SUITE TO SOURCE MODE in an empty folder, and leaves in
# TO.failing the names of the tests that fail, in TO.count how many there are, and in TO.said what was said.

nix_suite() {
    cp -r "$2/tests/." .
    : >common.sh
    # Nix asks for 32 MB at its start, in which no test comes to a collection.
    GC_INITIAL_HEAP_SIZE=64k over "$3" 300 bash lang.sh >"$1.said" 2>&1
    grep -a '^FAIL: ' "$1.said" | awk '{ print $2 }' >"$1.failing"
    grep -ac '^parsing \|^evaluating ' "$1.said" >"$1.count"
}

w3m_suite() {
    local test options
    cp -r "$2/tests/." .
    for test in *.html; do
        options=()
        [ ! -e "${test%.html}.opts" ] || mapfile -t options < <(grep -v '^#' "${test%.html}.opts")
        over "$3" 300 w3m -config /dev/null -o ignore_null_img_alt=false -I utf-8 -O utf-8 -T text/html "${options[@]}" <"$test" 2>>"$1.said" |
            cmp -s - "${test%.html}.expected" || echo "$test"
    done >"$1.failing"
    find . -name '*.html' | wc -l >"$1.count"
}

ecl_suite() {
    cp -r "$2/src/tests/." .
    sed "s,@true_srcdir@,$2/src,; s,@builddir@,$PWD,; s,@prefix@,/usr," config.lsp.in >config.lsp
    over "$3" 30 ecl -norc -load doit.lsp -eval "(2am-ecl:run 'cl-test::make-check)" -eval '(ext:quit)' </dev/null >"$1.said" 2>&1
    sed -n '/^Failure details/,$p' "$1.said" | sed -n 's/^ \([A-Z][^ ]*\):$/\1/p' | sort >"$1.failing"
    sed -n 's/^Did \([0-9]*\) tests.*/\1/p' "$1.said" >"$1.count"
}

# Each file in a process of its own: one that can't be loaded would end the others. A file that ends otherwise than by its tests is a failure too.
guile() {
    local file name ended
    cp -r "$2/test-suite/." .
    : >"$1.log"
    for file in tests/${FILES:-*}.test; do
        name=$(basename "$file")
        GUILE_AUTO_COMPILE=0 over "$3" 30 "/usr/lib/x86_64-linux-gnu/guile/$4/bin/guile" -L . --no-auto-compile -e main -s guile-test --test-suite tests \
            --log-file log "$name" </dev/null >>"$1.said" 2>&1
        ended=$?
        [ $ended -le 1 ] || echo "ERROR: $name: ended by $ended" >>"$1.log"
        [ ! -e log ] || cat log >>"$1.log"
        rm -f log
    done
    sed -n 's/ - arguments: .*//; s/^\(FAIL\|UPASS\|ERROR\): //p' "$1.log" | tr ' ' _ >"$1.failing"
    grep -ac '^[A-Z]*: ' "$1.log" >"$1.count"
}
guile_3_0_suite() { guile "$@" 3.0; }
guile_2_2_suite() { guile "$@" 2.2; }

# Goo says of each test that is wrong one line at the end.
goo_suite() {
    cp -r "$2/src/." .
    printf '(use tests)\n(run-all-tests)\n' | GOO_ROOT=/usr/lib/goo over "$3" 300 goo >"$1.said" 2>&1
    sed -n '/^WARNING AND ERROR SUMMARY/,/^Tautology/p' "$1.said" | grep -a '^\(Warning\|Error\)' | tr ' ' _ >"$1.failing"
    grep -ac '^  (' "$1.said" >"$1.count"
}

# Dejagnu runs poke's, each in a process of its own, and calls what it doesn't expect on the second output an error. FILES is a pattern, as for guile.
poke_suite() {
    # shellcheck disable=SC2016 # (the script of another shell)
    printf '#!/bin/sh\n/usr/bin/poke "$@" 2>err\nended=$?\ngrep -v "^mpgc: " err >&2\ngrep "^mpgc: " err >>figures\nexit $ended\n' >poke
    chmod +x poke
    HAVE_LIBTEXTSTYLE=yes NBDKIT=no HOST_OS=linux TESTS="${FILES:-*}.pk" over "$3" 300 runtest --tool poke --srcdir "$2/testsuite" --objdir "$PWD" \
        POKE="$PWD/poke" SHELL=/bin/sh pkl.exp >"$1.said" 2>&1
    [ ! -e figures ] || cat figures >>"$1.said"
    sed -n 's/^\(FAIL\|XPASS\|UNRESOLVED\|ERROR\): //p' poke.sum | tr ' ' _ >"$1.failing"
    grep -ac '^\(PASS\|FAIL\|XFAIL\|XPASS\): ' poke.sum >"$1.count"
}
