# shellcheck shell=bash
# Specs of crystal's standard library that need no other library, compiled over libgc, once, in the folder of the source.

crystal_specs='array atomic bit_array box channel concurrent csv deque dir enumerable exception fiber file gc hash ini io iterator json log mutex
named_tuple pointer pp proc process range reference regex set signal slice socket string string_builder string_pool string_scanner struct thread tuple
wait_group weak_ref'

# specs_of SOURCE FLAGS..: the binary, where it is. A source that is newer than the compiler is compiled with the source's own library, which asks
# for what such a compiler doesn't answer.
specs_of() {
    local binary=$1/specs${*:2} name spec specs=()
    if [ ! -x "$binary" ]; then
        sed -i 's/LibGC.has_method?(:\(get_my\|set\)_stackbottom)/true/' "$1/src/gc/boehm.cr"
        for name in $crystal_specs; do
            for spec in "$1/spec/std/${name}_spec.cr" "$1/spec/std/$name"/*_spec.cr; do [ ! -e "$spec" ] || specs+=("$spec"); done
        done
        (cd "$1" && CRYSTAL_PATH=$PWD/src:lib crystal build --no-color "${@:2}" "${specs[@]}" -o "$binary") >/dev/null 2>&1
    fi
    echo "$binary"
}

# crystal_with TO SOURCE MODE FLAGS..: a spec that fails is told by its file and line at the end. Those that ask for gigabytes run by themselves.
crystal_with() {
    local binary tag ended
    binary=$(specs_of "$2" "${@:4}")
    for tag in '~slow' slow; do
        (cd "$2" && over "$3" 30 "$binary" --no-color --tag "$tag" </dev/null >>"$1.said" 2>&1)
        ended=$?
        [ $ended -le 1 ] || echo "$tag:ended_by_$ended"
    done >"$1.failing"
    sed -n 's/^crystal spec \([^ ]*\).*/\1/p' "$1.said" >>"$1.failing"
    awk '/^[0-9]+ examples, / { sum += $1 } END { print sum + 0 }' "$1.said" >"$1.count"
}
crystal_suite() { crystal_with "$@"; }
crystal_threads_suite() { CRYSTAL_WORKERS=4 crystal_with "$@" -Dpreview_mt; }
