# shellcheck shell=bash disable=SC2154 # (whoever reads this has the other names)
# Part of tests/wrapper.sh, read by it: what `package` packs, and what it says of where that is from. tests/package.sh tries a real one.

# rt_told EDIT..: rt ci told of these wrong bodies of words that they were refused, and of one that it wasn't.
rt_told() {
    local edit
    {
        for edit in "$@"; do echo "rt: must-fail words/$edit.edit: refused, as it must be: src/lib.rt:1:1: error"; done
        echo "rt: must-fail words/third.edit: NOT REFUSED: the crate is still proved with this edit"
    } >"$room/told"
    # shellcheck source=/dev/null disable=SC2034 # (what is read uses it)
    (here=$tree && . "$tree/wrapper/sources.sh" && . "$tree/wrapper/refused.sh" && keep_refused "$room/told")
}

# refused_in SOURCES: the edits of which it says so. told_of SOURCES: all that it tells of.
refused_in() { sed -n '/^Wrong bodies that the prover refused/,/^Wrong bodies of which/{s|^  crates/words/must-fail/||p}' "$1" | tr '\n' ' '; }
unknown_in() { sed -n '/^Wrong bodies of which/,/^The files/{s|^  crates/words/must-fail/||p}' "$1" | tr '\n' ' '; }

a_package_is_made() {
    local sources=share/doc/mpheap/SOURCES stage
    call build
    mkdir -p "$tree/docs" "$tree/crates/words/must-fail"
    cp "$top"/docs/{SCRIPTS,REPLAY}.md "$tree/docs"
    cp "$top"/LICENSE-* "$tree"
    printf 'file: src/lib.rt\n' | tee "$tree"/crates/words/must-fail/{first,second,third,fourth}.edit >/dev/null
    rt_told first second
    echo "# more" >>"$tree/crates/words/must-fail/second.edit"
    call package "$room/packed"
    is "package: status, rt's calls" "0 " "$status $(calls)"
    is "package: what is made" "$room/packed/mpheap-0.1-x86_64.tar.gz" "$(sed -n 's/^mpheap: \(.*gz\)$/\1/p' "$room/out")"
    tar xzf "$room/packed/mpheap-0.1-x86_64.tar.gz" -C "$room/packed" || return
    stage=$room/packed/mpheap-0.1
    is "package: the wrong bodies of which the full test told" "first.edit " "$(refused_in "$stage/$sources")"
    is "package: those of which it didn't, or of other texts" "fourth.edit second.edit third.edit " "$(unknown_in "$stage/$sources")"
    is "package: the rules of proof" "$(cat "$room/says/version")" "$(sed -n 's/^  mpheap: //p' "$stage/$sources")"
    is "package: its completion and pages" "$(lines "$stage"/share/{bash-completion/completions/mpheap,man/man1/mpheap.1,man/man3/libmpgc.3})" \
        "$(find "$stage/share/bash-completion" "$stage/share/man" -type f | sort)"
    is "package: its version" "$(lines "mpheap 0.1" "commit: unknown" "rules of proof: $(cat "$room/says/version")")" "$("$stage/bin/mpheap" --version)"
    is "package: a program" replied "$("$stage/bin/mpheap" run --pages 4 first.script 2>"$room/err")"
    wrapper=$stage/bin/mpheap call build
    is "package: nothing is built there" "3 mpheap: 'build' needs the sources, and this is a package" "$status $err"
    is "package: a .deb where there is dpkg-deb" "$(command -v dpkg-deb >/dev/null && echo yes)" "$(test -f "$room/packed/mpheap_0.1_amd64.deb" && echo yes)"
    echo "// more" >>"$tree/crates/words/src/lib.rt"
    call package "$room/other"
    is "package after an edit: status, nothing is made" "3 no" "$status $(test -e "$room/other" && echo yes || echo no)"
    sed -i '$d' "$tree/crates/words/src/lib.rt"
    rm -rf "$tree/docs" "$tree/crates/words/must-fail" "$tree"/LICENSE-*
}
