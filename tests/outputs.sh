#!/usr/bin/env bash
# What the program prints of each case in a folder, where the case NAME has its words in NAME.args, one in a line, and {} among them stands
# for its file NAME; before the words of all cases stands COMMAND, if it is given:
#     tests/outputs.sh CASES FOLDER [COMMAND]
# FOLDER/NAME is what it prints, by the build that tests/builds.sh says; as many run at once as there are processors. Each case has to end with
# status 0.
set -euo pipefail
top=$(dirname "$(dirname "$(readlink -f "${BASH_SOURCE[0]}")")")
# shellcheck source=tests/builds.sh
. "$top/tests/builds.sh"
export build cases=$1 folder=$2 command=${3-}
mkdir -p "$folder"

run_cases() {
    local args name words
    for args in "$@"; do
        name=${args##*/}
        name=${name%.args}
        mapfile -t words <"$args"
        "$build" ${command:+"$command"} "${words[@]/#\{\}/"$cases/$name"}" >"$folder/$name" </dev/null || { echo "case $name: status $?" && exit 255; }
    done
}
export -f run_cases
printf '%s\0' "$cases"/*.args | xargs -0 -n 20 -P "$(nproc)" bash -c 'run_cases "$@"' bash
