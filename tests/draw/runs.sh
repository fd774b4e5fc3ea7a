#!/usr/bin/env bash
# What a command prints of some files:
#     tests/draw/runs.sh COMMAND CASES FOLDER
# CASES has each file as NAME and the words with which it is drawn or recorded as NAME.args, one a line, where {} is the file. Which build
# runs is said in tests/builds.sh. FOLDER/NAME is what it prints, FOLDER/NAME.status its status, and FOLDER/NAME.err what it says on
# standard error.
set -euo pipefail
top=$(dirname "$(dirname "$(dirname "$(readlink -f "${BASH_SOURCE[0]}")")")")
# shellcheck source=tests/builds.sh
. "$top/tests/builds.sh"
command=$1 cases=$2 folder=$3
[ -x "$build" ] || { echo "there is no $build" && exit 1; }
mkdir -p "$folder"
for words in "$cases"/*.args; do
    name=$(basename "$words" .args)
    mapfile -t words <"$words"
    status=0
    "$build" "$command" "${words[@]/#\{\}/"$cases/$name"}" >"$folder/$name" 2>"$folder/$name.err" || status=$?
    echo $status >"$folder/$name.status"
done
