# shellcheck shell=bash disable=SC2154 # (mpheap has the other names)
# Part of the wrapper mpheap, read by it: what bash reads to complete its words, made of the table.

# choices AT: what bash completes where a row's value stands.
choices() {
    case ${row_takes[$1]} in
        file) echo "compgen -f -- \"\$word\"" ;;
        folder) echo "compgen -d -- \"\$word\"" ;;
        "" | [0-9]*) echo : ;;
        *) echo "compgen -W '${row_takes[$1]}' -- \"\$word\"" ;;
    esac
}

# cases_of COMMAND: behind each option its value, and else options, or what the command takes besides.
cases_of() {
    local at operand=:
    for at in ${rows_of[$1]} ${rows_of[top]}; do
        if ! is_option "$at"; then
            operand=$(choices "$at")
        elif ! is_flag "$at"; then
            echo "        '$1 ${row_name[at]}') $(choices "$at") ;;"
        fi
    done
    echo "        '$1 '*) if [[ \$word = -* ]]; then compgen -W '$(options_of "$1" | tr '\n' ' ')' -- \"\$word\"; else $operand; fi ;;"
}

completion() {
    local command
    echo "# Completion of mpheap's words for bash, made by: mpheap completion"
    echo "_mpheap_choices() {"
    echo "    case \"\$1 \$2\" in"
    for command in "${commands[@]}"; do cases_of "$command"; done
    echo "        *) compgen -W '${commands[*]} $(options_of top | sort -u | tr '\n' ' ')' -- \"\$word\" ;;"
    cat <<'BASH'
    esac
}
_mpheap() {
    local word=${COMP_WORDS[COMP_CWORD]} command= at=1
    while [ "$at" -lt "$COMP_CWORD" ] && [ "${COMP_WORDS[at]}" = --quiet ]; do at=$((at + 1)); done
    [ "$COMP_CWORD" = "$at" ] || command=${COMP_WORDS[at]}
    mapfile -t COMPREPLY < <(_mpheap_choices "$command" "${COMP_WORDS[COMP_CWORD - 1]}")
}
complete -o filenames -F _mpheap mpheap
BASH
}
