# shellcheck shell=bash disable=SC2154 # (mpheap has the other names)
# Part of the wrapper mpheap, read by it: `build`, which makes what its words name, or all that can be made; and `install`.

# crate_of WORD: the crate of what the word names.
crate_of() {
    case $1 in
        c | gc) echo mpheap_c ;;
        *) echo mpheap ;;
    esac
}

has_compiler() {
    command -v "${CC:-cc}" >/dev/null 2>&1
}

# build WORD..: without words all, and what needs a C compiler only where there is one.
build() {
    local word crate lacking=() made=() not_made=() runs_otherwise=()
    if [[ $# = 0 ]]; then
        set -- mpheap
        if has_compiler; then set -- mpheap c gc; else say "there is no C compiler: c and gc aren't built (CC names another than cc)"; fi
    fi
    make_room
    mkdir -p "$here/out" || no_answer "$here/out can't be made"
    for crate in $(for word in "$@"; do crate_of "$word"; done | sort -u); do
        is_proved "$crate" || lacking+=("$crate")
    done
    [[ ${#lacking[@]} = 0 ]] || prove_and_build "${lacking[@]}"
    for word in "$@"; do
        if make "$word"; then made+=("$word"); else not_made+=("$word"); fi
    done
    note "made: ${made[*]:-nothing}"
    [[ ${#runs_otherwise[@]} = 0 ]] || say "made, but of another answer than is wanted: ${runs_otherwise[*]}"
    [[ ${#not_made[@]} = 0 ]] || no_answer "not made: ${not_made[*]}"
    [[ ${#runs_otherwise[@]} = 0 ]] || exit 3
}

# make WORD: what the word names, where its crate is proved of the sources that stand here, and a line of how it is used.
make() {
    local crate
    crate=$(crate_of "$1")
    is_proved "$crate" || return
    case $1 in
        c) make_archive ;;
        gc) make_libmpgc ;;
        *) echo "mpheap: the proved build is $(built "$crate")" ;;
    esac
}

# by_tools AGAIN COMMAND..: it makes a library of what is proved, else it is said how that is tried again.
by_tools() {
    "${@:2}" >"$room/made" 2>&1 </dev/null &
    wait_for_child $! && return
    tail -n 15 "$room/made" >&2
    say "what is proved can't be made into a library, as is said above: again by '$1'"
    return 1
}

make_archive() {
    local library
    library=$(dirname "$(built mpheap_c)")
    by_tools "$here/c/archive $library" "$here/c/archive" "$library" || return
    echo "mpheap: a program in C: cc -I$here/include program.c $library/libmpheap.a"
}

make_libmpgc() {
    by_tools "$here/gc/build $here/out" "$here/gc/build" "$here/out" || return
    echo "mpheap: a program that was written for bdwgc: LD_PRELOAD=$here/out/libmpgc.so PROGRAM"
}

# install PREFIX
install() {
    is_proved mpheap_c || no_answer "the heap for C isn't built from these sources: 'mpheap build c' and 'mpheap build gc' build it"
    "$here/c/install" "$1" || no_answer "the heap for C can't be copied to $1"
    echo "mpheap: a program in C: cc program.c \$(PKG_CONFIG_PATH=$1/lib/pkgconfig pkg-config --cflags --libs mpheap)"
    "$here/gc/install" "$1" || no_answer "libmpgc can't be copied to $1"
    echo "mpheap: one that was written for bdwgc: cc program.c \$(PKG_CONFIG_PATH=$1/lib/pkgconfig pkg-config --cflags --libs mpgc)"
    install_words "$1" || no_answer "the completion and the manual's pages can't be copied to $1"
}

# install_words PREFIX: what bash and man read.
install_words() {
    local completions=$1/share/bash-completion/completions pages=$1/share/man
    mkdir -p "$completions" "$pages/man1" "$pages/man3" && completion >"$completions/mpheap" && manual >"$pages/man1/mpheap.1" &&
        cp "$here/wrapper/libmpgc.3" "$pages/man3"
}
