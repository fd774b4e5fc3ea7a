#!/usr/bin/env bash
# tests/gc/checking_archive.sh FOLDER makes FOLDER/libmpheap.a of the core that checks what the layer owes (checking_core.c), in the place of the
# proved one: MPHEAP_ARCHIVE of gc/build, tests/gc.sh and tests/debian.sh. It takes no proof. Under CORE_ALLOWS=nameless a word may be written
# untold that names no object, as by functions of programs that mark. MPHEAP_INCLUDE is that of gc/build.
set -euo pipefail
top=$(dirname "$(dirname "$(dirname "$(readlink -f "${BASH_SOURCE[0]}")")")")
folder=$1
mkdir -p "$folder"
for file in tests/gc/checking_core c/lent; do
    "${CC:-cc}" -std=c11 -O2 -Wall -Wextra -Werror -pedantic -fPIC "-I${MPHEAP_INCLUDE:-$top/include}" -c "$top/$file.c" -o "$folder/$(basename $file).o"
done
rm -f "$folder/libmpheap.a"
"${AR:-ar}" rcs "$folder/libmpheap.a" "$folder/checking_core.o" "$folder/lent.o"
