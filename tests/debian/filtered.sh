#!/usr/bin/env bash
# tests/debian/filtered.sh: mailutils' mda and lmtpd give letters to the filter filter.scm, which puts them into a box.
export GUILE_AUTO_COMPILE=0 BOX=$PWD/box
letter() {
    printf 'From: a@example.org\nTo: root\nSubject: the letter %d\n\n' "$1"
    seq 1 $(($1 * 100)) | sed 's/$/ of many lines with a few words/'
}
session() {
    printf 'LHLO localhost\nMAIL FROM:<a@example.org>\nRCPT TO:<root@localhost>\nDATA\n'
    letter "$1"
    printf '.\nQUIT\n'
}
filter=(--stderr --language=scheme "--script=$PWD/filter.scm")
for k in 1 2 3; do
    letter $k | mda "${filter[@]}" --from=a@example.org root || exit
    session $k | sed 's/$/\r/' | lmtpd --no-config --set .auth.authorization=system --set 'group=()' "${filter[@]}" --inetd | sed 's/ .*//' || exit
done
sed -i '/^From \|^X-IMAPbase/d' box
