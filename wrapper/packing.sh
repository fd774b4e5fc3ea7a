# shellcheck shell=bash disable=SC2154 # (mpheap has the other names)
# Part of the wrapper mpheap, read by it: `package`, which packs what was proved and built, for machines that have no Rattle: as an archive
# to be unpacked anywhere, and as a .deb. It proves nothing. SOURCES in it says what it was made from, and which wrong bodies the prover
# refused, as far as a full test over the same sources left word of it (wrapper/refused.sh).

# package DIR
package() {
    local crate lacking=() version name stage crates=(mpheap mpheap_c)
    for crate in "${crates[@]}"; do is_proved "$crate" || lacking+=("$crate"); done
    [[ ${#lacking[@]} = 0 ]] || no_answer "not built of the sources that stand here: ${lacking[*]}; 'mpheap build' builds all"
    make_room
    version=$(number_of_version)
    name=mpheap-$version
    stage=$room/$name
    { mkdir -p "$stage" "$1" && stage_command && stage_libraries && stage_papers; } || no_answer "the files can't be gathered in $room"
    pack_archive "$1" || no_answer "$1 can't be written"
    pack_deb "$1" || no_answer "$1 can't be written"
}

# The command, with the parts that it reads, and the program.
stage_command() {
    local share=$stage/lib/mpheap
    progress "gathers the program"
    mkdir -p "$stage/bin" "$share/docs" && cp -R "$here/mpheap" "$here/wrapper" "$here/viewer" "$share" &&
        cp "$here/docs/SCRIPTS.md" "$here/docs/REPLAY.md" "$share/docs" && version >"$share/version" && ln -s ../lib/mpheap/mpheap "$stage/bin/mpheap" &&
        cp "$(built mpheap)" "$share/program"
}

stage_libraries() {
    progress "makes the libraries"
    by_tools "$here/mpheap package DIR" "$here/c/install" "$stage" && by_tools "$here/mpheap package DIR" "$here/gc/install" "$stage" && install_words "$stage"
}

stage_papers() {
    local papers=$stage/share/doc/mpheap
    mkdir -p "$papers" && cp "$here/README.md" "$here/LICENSE-MIT" "$here/LICENSE-APACHE" "$papers" || return
    printf 'Licence: MIT or Apache-2.0, at your choice; the texts are LICENSE-MIT and LICENSE-APACHE beside this file.\n' >"$papers/copyright"
    say_sources >"$papers/SOURCES"
}

# say_sources: what the package was made from.
say_sources() {
    local crate
    echo "What was packed:"
    version | sed 's/^/  /'
    echo "Rules of proof, by rt version, under which each was proved:"
    for crate in "${crates[@]}"; do echo "  $crate: $(cat "$(built "$crate").rules")"; done
    tell_refused "${crates[@]}"
    echo "The files, by sha256:"
    (cd "$stage" && find . -type f ! -name SOURCES | LC_ALL=C sort | xargs sha256sum) | sed 's/^/  /'
    echo "Its sources, by sha256; the last sum is that of their rows of crates.txt:"
    source_sums "$here" "${crates[@]}" | sed 's/^/  /'
    echo "The C around it, which is trusted, by sha256:"
    (cd "$here" && find c gc include -type f | LC_ALL=C sort | xargs sha256sum) | sed 's/^/  /'
}

# pack_archive DIR
pack_archive() {
    progress "packs"
    (cd "$room" && tar cf - --sort=name --owner=0 --group=0 --numeric-owner --mtime=@0 "$name" | gzip -9n) >"$room/packed" || return
    put "$room/packed" "$1/$name-x86_64.tar.gz" && end_progress && echo "mpheap: $1/$name-x86_64.tar.gz"
}

# newest_glibc: the newest version of the C library that what is packed asks for.
newest_glibc() {
    objdump -T "$stage/lib/mpheap/program" "$stage/lib/libmpgc.so" 2>/dev/null | sed -n 's/.*GLIBC_\([0-9.]*\).*/\1/p' | sort -V | tail -n 1
}

# pack_deb DIR: where there is dpkg-deb.
pack_deb() {
    local deb=$room/deb
    command -v dpkg-deb >/dev/null 2>&1 || { say "there is no dpkg-deb: no .deb is made" && return; }
    mkdir -p "$deb/DEBIAN" && cp -R "$stage" "$deb/usr" || return
    echo "activate-noawait ldconfig" >"$deb/DEBIAN/triggers"
    cat >"$deb/DEBIAN/control" <<CONTROL
Package: mpheap
Version: $version
Architecture: amd64
Maintainer: the maintainers of mpheap <mpheap@localhost>
Depends: bash, libc6 (>= $(newest_glibc)), libgcc-s1
Section: libs
Priority: optional
Description: a proved, mostly-parallel conservative mark-sweep heap
 The command mpheap, which runs scripts and workloads on the heap and judges
 runs of other heaps; the heap as a library for C; and libmpgc, which runs C
 programs that were written for bdwgc. SOURCES says what was proved of it.
CONTROL
    SOURCE_DATE_EPOCH=0 dpkg-deb --root-owner-group --build "$deb" "$room/packed" >/dev/null || return
    put "$room/packed" "$1/mpheap_${version}_amd64.deb" && echo "mpheap: $1/mpheap_${version}_amd64.deb"
}
