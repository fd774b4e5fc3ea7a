# shellcheck shell=bash
# Suites whose tests are compared with what they say and write over libgc. Each function is called as those of judged.sh are. Over libgc a test fails
# that ends by another status than 0; over libmpgc one that says or writes something else. FILES is a pattern of those that are tried, without
# their ending, if not all are.

# tried TO MODE DIVISOR NAME COMMAND..: the test NAME; what the command says, and what it writes to the folder `written`, goes to TO.outs/NAME.
tried() {
    local out=$1.outs/$4 ended file
    mkdir -p "$1.outs" written
    over "$2" "$3" "${@:5}" </dev/null >out 2>err
    ended=$?
    {
        cat out
        grep -av '^mpgc: \|^Processing \|^GNU LilyPond' err | sed 's/([a-z]*:[0-9]*): WARNING \*\*: [0-9:.]*/WARNING/; s/mpgc: [0-9]* collections: .*//'
        for file in written/*; do [ ! -e "$file" ] || { echo "file $file"; grep -av 'CreationDate' "$file"; }; done
        echo "status $ended"
    } >"$out" 2>&1
    grep -a '^mpgc: ' err >>"$1.said"
    rm -rf written
}

# compared TO MODE: TO.outs with those over libgc.
compared() {
    local one
    for one in "$1.outs"/*; do
        if [ "$2" = none ]; then
            [ "$(tail -n 1 "$one")" = "status 0" ]
        else
            cmp -s "$one" "${1%.*}.none.outs/$(basename "$one")"
        fi || basename "$one"
    done >"$1.failing"
    find "$1.outs" -type f | wc -l >"$1.count"
}

# Neko's benchmarks, compiled by it and then run.
neko_suite() {
    local file name
    cp "$2"/src/benchs/*.neko "$2/src/tools/test.neko" .
    : >"$1.said"
    for file in ${FILES:-*}.neko; do
        name=${file%.neko}
        mkdir -p written
        tried "$1" "$3" 300 "nekoc-$name" nekoc -o written "$file"
        nekoc "$file" >out 2>&1
        tried "$1" "$3" 300 "$name" neko "$name"
    done
    compared "$1" "$3"
}

asymptote_suite() {
    local folder file
    cp -r "$2/tests/." .
    : >"$1.said"
    for folder in string arith frames types imp array pic gs io template; do
        for file in "$folder"/${FILES:-*}.asy; do
            tried "$1" "$3" 30 "${file/\//-}" asy -noV "$file"
        done
    done
    compared "$1" "$3"
}

# Lilypond's regression tests, the first 5 of each 25 in one process, and each page that they write is a test.
lilypond_suite() {
    local files page
    mkdir -p pages
    mapfile -t files < <(find "$2/input/regression" -maxdepth 1 -name "${FILES:-*}.ly" | sort | awk 'NR % 25 < 5')
    (cd pages && over "$3" 3 lilypond -s --svg -dno-point-and-click -I "$2/input/regression" "${files[@]}" </dev/null >"$1.said" 2>&1)
    echo "status $?" >>"$1.said"
    mkdir -p "$1.outs"
    for page in pages/*; do { cat "$page"; echo; echo "status 0"; } >"$1.outs/$(basename "$page")"; done
    compared "$1" "$3"
}

# cli_tests FILE: of inkscape's own list, NAME|INPUT|OUTPUT|PARAMETERS; without those that are told by other programs.
cli_tests() {
    sed 's/^ *#.*//' "$1" | tr '\n' ' ' | sed 's/add_cli_test(/\n&/g' | sed -n 's/^add_cli_test(\([^)]*\)).*/\1/p' | awk '{
        input = output = parameters = key = ""
        for (i = 2; i <= NF; i++)
            if ($i ~ /^[A-Z_]+$/) key = $i
            else if (key == "PARAMETERS") parameters = parameters " " $i
            else if (key == "INPUT_FILENAME") input = $i
            else if (key == "OUTPUT_FILENAME") output = $i
        if (input != "" && output != "" && parameters !~ /["$;]/) print $1 "|" input "|" output "|" parameters
    }'
}

inkscape_suite() {
    local name input output parameters
    cp -r "$2/testfiles/cli_tests/testcases" .
    : >"$1.said"
    cli_tests "$2/testfiles/cli_tests/CMakeLists.txt" >list
    while IFS='|' read -r name input output parameters; do
        # shellcheck disable=SC2053 # (a pattern)
        [[ $name = ${FILES:-*} ]] || continue
        read -ra parameters <<<"$parameters"
        mkdir -p written
        tried "$1" "$3" 300 "$name" inkscape "${parameters[@]}" --export-filename="written/$output" "testcases/$input"
    done <list
    compared "$1" "$3"
}

macaulay2_suite() {
    local file
    : >"$1.said"
    cp -r "$2"/Macaulay2/tests/normal/*.m2 .
    for file in ${FILES:-*}.m2; do
        tried "$1" "$3" 30 "$file" M2 --script "$file"
        # (Times and addresses are in what they say.)
        sed -i '$!d' "$1.outs/$file"
    done
    compared "$1" "$3"
}

# The tests of some of macaulay2's packages, as these are installed, each package in a process of its own.
macaulay2_packages_suite() {
    local name
    : >"$1.said"
    for name in Text Elimination FourierMotzkin SymmetricPolynomials TangentCone LieTypes XML Graphs Posets SimplicialComplexes ReesAlgebra \
        Points FGLM Depth Truncations; do
        # shellcheck disable=SC2053 # (a pattern)
        [[ $name = ${FILES:-*} ]] || continue
        tried "$1" "$3" 10 "$name" M2 -q --silent -e "check \"$name\"" -e 'exit 0'
        sed -i 's/[0-9.e-]* seconds elapsed//; s/^ -- used .*//; s/M2-[0-9]*-[0-9]*/M2/g' "$1.outs/$name"
    done
    compared "$1" "$3"
}

# Some files of maxima's test-suite, of the package maxima-test, by maxima on ecl: what it says of each problem.
maxima_suite() {
    local file
    cp -r /usr/share/maxima/*/tests/. .
    : >"$1.said"
    for file in ${FILES:-rtest@(3|5|_trig|nset|_numth|_laplace|_taylor|sum)}.mac; do
        # shellcheck disable=SC2016 # (maxima's $)
        tried "$1" "$3" 3 "$file" maxima-sage --very-quiet --batch-string='file_search_tests:["./###.{mac,lisp}"]$ batch("'"$file"'",test)$'
        sed -i 's/0x[0-9a-f]*/ADDRESS/g' "$1.outs/$file"
    done
    compared "$1" "$3"
}
