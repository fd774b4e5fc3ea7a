#!/usr/bin/env bash
# Tests of `./mpheap package`: the archive, unpacked in a folder, and the .deb, in a root of its own that has nothing but it, the C library and
# the tools that its command calls: there programs run, C is linked, and LD_PRELOAD works. It needs rt, cc and dpkg-deb, and for the root
# to be root; what isn't there is left out, and said. Where `rt ci` passed before on this machine, it proves one crate, the library for C, and
# takes some two minutes; tests/wrapper/packing.sh tries the rest over a stand-in for rt.
set -uo pipefail
top=$(dirname "$(dirname "$(readlink -f "${BASH_SOURCE[0]}")")")
room=$(mktemp -d)
trap 'rm -rf "$room"' EXIT
trap 'exit 143' INT TERM HUP
kind=package
# shellcheck source=tests/counts.sh
. "$top/tests/counts.sh"

# works WHAT COMMAND..: the command ends with 0.
works() {
    local status=0
    "${@:2}" >"$room/said" 2>&1 || status=$?
    is "$1" "status 0" "status $status$([ $status = 0 ] || tail -n 5 "$room/said")"
}

close() {
    tell_counts
    exit
}

# runs WHAT FOLDER NAME COMMAND..: the packed command, so called, answers as the tree says. It sees the folder under that name.
runs() {
    local what=$1 folder=$2 name=$3
    shift 3
    cp "$top/examples/ring.script" "$folder/ring.script"
    is "$what: a script" "$(cat "$top/examples/ring.replies")" "$("$@" run --pages 4 <"$folder/ring.script" 2>"$room/err")"
    is "$what: which build" "mpheap: the proved build" "$(cat "$room/err")"
    "$@" record --pages 4 "$name/ring.script" 2>"$room/err" >"$folder/run"
    is "$what: a run" "legal, 8 lines" "$("$@" replay --pages 4 "$name/run" 2>"$room/err")"
    "$@" draw --pages 4 "$name/ring.script" 2>"$room/err" >"$folder/page"
    is "$what: a page" "<!doctype html>" "$(head -n 1 "$folder/page" | tr '[:upper:]' '[:lower:]')"
    "$@" build >"$room/said" 2>&1
    is "$what: no build" "3 mpheap: 'build' needs the sources, and this is a package" "$? $(cat "$room/said")"
    is "$what: its version" "$("$top/mpheap" --version)" "$("$@" --version)"
    is "$what: how a command is used" "usage: mpheap record --pages N FILE" "$("$@" help record | head -n 1)"
    "$@" rum >"$room/said" 2>&1
    is "$what: words that are wrong" "2 mpheap: 'rum' is no command: the nearest is 'run'" "$? $(head -n 1 "$room/said")"
}

# SOURCES has the sums of what is packed and of what it was made from, and tells of each wrong body whether it was refused.
sources_are_told() {
    local papers=$1/share/doc/mpheap
    is "its version" "$("$top/mpheap" --version)" "$(sed -n '2,4s/^  //p' "$papers/SOURCES")"
    is "the rules of proof" "$(rt version)" "$(sed -n 's/^  mpheap: //p' "$papers/SOURCES")"
    is "wrong bodies" "$(find "$top"/crates/{words,block_map,programs}/must-fail -name '*.edit' -printf '%f\n' | sort)" \
        "$(sed -nE 's,^  crates/(words|block_map|programs)/must-fail/,,p' "$papers/SOURCES" | sort)"
    is "those that a full test told of" "$(sed -n 's,.* crates/words/must-fail/,,p' "$top/out/refused" 2>/dev/null | sort)" \
        "$(sed -n '/^Wrong bodies of which no full test/q; s,^  crates/words/must-fail/,,p' "$papers/SOURCES" | sort)"
    (cd "$1" && sed -n 's/^  \([0-9a-f]\{64\}  \.\/\)/\1/p' "$papers/SOURCES" | sha256sum --quiet -c) >"$room/said" 2>&1
    is "the sums of what is packed" "0 " "$? $(cat "$room/said")"
    (cd "$top" && sed -n 's/^  \([0-9a-f]\{64\}  [a-zH].*\)/\1/p' "$papers/SOURCES" | tee "$room/sums" | sha256sum --quiet -c) >"$room/said" 2>&1
    is "the sums of the sources" "0 " "$? $(cat "$room/said")"
    is "enough of them" yes "$([ "$(wc -l <"$room/sums")" -gt 500 ] && echo yes)"
}

# completion_is_packed FOLDER: bash and man read what is there.
completion_is_packed() {
    # shellcheck disable=SC2016 # (the inner shell expands it)
    is "completion" "record replay" "$(bash -c '. "$1"; COMP_WORDS=(mpheap re) COMP_CWORD=1; _mpheap; echo "${COMPREPLY[*]}"' - "$1/share/bash-completion/completions/mpheap")"
    is "manual" ".TH MPHEAP 1 .TH LIBMPGC 3" "$(cut -d' ' -f1-3 <(head -n 1 "$1/share/man/man1/mpheap.1") <(head -n 1 "$1/share/man/man3/libmpgc.3") | tr '\n' ' ' | sed 's/ $//')"
}

# A program linked with a libgc whose requests abort: under libmpgc none comes there.
build_programs() {
    local c=(cc -std=c99 -O2 -Wall -Wextra -Werror -pedantic)
    works "a libgc that aborts" "${c[@]}" -shared -fPIC -Wl,-soname,libgc.so.1 "$top/tests/package/abort.c" -o "$room/libgc.so.1"
    works "a program for libgc" "${c[@]}" "$top/tests/package/program.c" "$room/libgc.so.1" -o "$room/program"
    works "a program for the heap" "${c[@]}" "-I$1/include" "$top/examples/c/hello.c" "$1/lib/libmpheap.a" -o "$room/hello"
    works "a program for libmpgc" "${c[@]}" "$top/tests/package/program.c" "-L$1/lib" -lmpgc -o "$room/linked"
}

# libraries_of FILE: those that it loads.
libraries_of() { ldd "$1" | grep -o '/[^ ]*'; }

# copied ROOT FILE..: the files come to the same places there.
copied() {
    local root=$1 one
    shift
    for one in "$@"; do
        mkdir -p "$root$(dirname "$one")"
        cp -Lu "$one" "$root$one"
    done
}

in_a_root_of_its_own() {
    local root=$room/root tool
    dpkg-deb -x "$room"/mpheap_*_amd64.deb "$root"
    ln -s usr/bin "$root/bin"
    for tool in bash sh env dirname readlink basename sed awk tr cat mktemp rm mkdir ls wc tail head cp mv; do
        tool=$(command -v "$tool")
        # shellcheck disable=SC2046 # (one word for each)
        copied "$root" "$tool" $(libraries_of "$tool")
    done
    # shellcheck disable=SC2046
    copied "$root" $(libraries_of "$root/usr/lib/mpheap/program") $(libraries_of "$root/usr/lib/libmpgc.so")
    mkdir -p "$root/tmp" "$root/home" "$root/dev" "$root/etc"
    mknod "$root/dev/null" c 1 3
    cp "$room/libgc.so.1" "$root/usr/lib/"
    cp "$room/program" "$room/hello" "$room/linked" "$root/home"
    ldconfig -r "$root"
    runs "in a root of its own" "$root/home" /home chroot "$root" /usr/bin/mpheap
    is "in a root of its own: a program for the heap" "$(cat "$top/examples/c/hello.expected")" "$(chroot "$root" /home/hello)"
    is "in a root of its own: one for libmpgc" 200100000 "$(chroot "$root" /home/linked)"
    is "in a root of its own: LD_PRELOAD" 200100000 "$(chroot "$root" /usr/bin/env LD_PRELOAD=libmpgc.so /home/program)"
    is "in a root of its own: without it" 134 "$({ chroot "$root" /home/program; } >"$room/said" 2>&1; echo $?)"
}

works "a build" "$top/mpheap" build
works "a package" "$top/mpheap" package "$room"
mkdir "$room/unpacked"
tar xzf "$room"/mpheap-*-x86_64.tar.gz -C "$room/unpacked" || close
folder=$(echo "$room"/unpacked/mpheap-*)
runs "unpacked" "$room/unpacked" "$room/unpacked" env PATH=/usr/bin:/bin "$folder/bin/mpheap"
completion_is_packed "$folder"
sources_are_told "$folder"
build_programs "$folder"
if [ ! -e "$(echo "$room"/mpheap_*_amd64.deb)" ]; then
    echo "package: left out: there is no dpkg-deb, and no .deb"
elif [ "$(id -u)" != 0 ]; then
    echo "package: left out: a root of its own, which only root can have"
elif ! chroot / true || ! mknod "$room/null" c 1 3; then
    echo "package: left out: a root of its own, which this root may not have"
else
    in_a_root_of_its_own
fi
close
