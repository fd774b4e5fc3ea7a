#!/usr/bin/env bash
# tests/debian/deliver.sh: mailutils puts letters into a box.
for k in $(seq 1 20); do
    printf 'From: a@example.org\nTo: b@example.org\nSubject: the letter %d\n\n%s\n' "$k" "$(seq 1 1000)" | putmail --from=a@example.org "mbox:$PWD/box"
done
sed -i '/^From \|^X-IMAPbase/d' box
