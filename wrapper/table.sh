# shellcheck shell=bash disable=SC2034,SC2154 # (mpheap has the other names, and reads these)
# Part of the wrapper mpheap, read by it: the table of its words, wrapper/table, as it is read.

# Of each command, in the order of the table: its name, what the program says last of bad words if it does the command, what it does, and which rows are its own. Of each row: its text in the
# form, its name (an option's with its dashes), the name of its value (none: a flag), what it takes, and what it is.
commands=()
declare -A own_text_of=() does=() rows_of=()
row_form=() row_name=() row_value=() row_takes=() row_says=()

# add_row FORM TAKES SAYS: one more row of the last command.
add_row() {
    local bare words
    bare=${1//[][()|]/}
    read -ra words <<<"$bare"
    row_form+=("$1")
    row_name+=("${words[0]}")
    case $bare in
        --*) row_value+=("${words[1]-}") ;;
        *) row_value+=("${words[0]}") ;;
    esac
    row_takes+=("$2")
    row_says+=("$3")
    rows_of[${commands[-1]:-top}]+="$((${#row_form[@]} - 1)) "
}

read_table() {
    local line first second third
    while IFS= read -r line; do
        IFS=';' read -r first second third <<<"${line#"${line%%[! ]*}"}"
        case $line in
            "" | "#"*) ;;
            " "*) add_row "$first" "${second# }" "${third# }" ;;
            *)
                commands+=("$first")
                own_text_of[${first:-top}]=${second# }
                does[${first:-top}]=${third# }
                rows_of[${first:-top}]=''
                ;;
        esac
    done <"$here/wrapper/table"
    commands=("${commands[@]:1}")
}

# form COMMAND: how it is used, as one line.
form() {
    local at text=$1
    for at in ${rows_of[$1]}; do text+=" ${row_form[at]}"; done
    echo "$text"
}

# options_of COMMAND: their names.
options_of() {
    local at
    for at in ${rows_of[$1]} ${rows_of[top]}; do
        if is_option "$at"; then echo "${row_name[at]}"; fi
    done
}

# row_of COMMAND NAME: the number of its row of this name, or of what every command takes.
row_of() {
    local at
    for at in ${rows_of[$1]} ${rows_of[top]}; do
        if [[ ${row_name[at]} = "$2" ]]; then echo "$at" && return; fi
    done
    return 1
}

is_option() { [[ ${row_name[$1]} = --* ]]; }
is_flag() { [[ -z ${row_value[$1]} ]]; }

# may_lack AT: it stands in brackets, or with another of which one has to be given (look_for_missing in words.sh).
may_lack() { [[ ${row_form[$1]} = *[][\(\)]* ]]; }

# operand_of COMMAND: the number of the row of what it takes besides options.
operand_of() {
    local at
    for at in ${rows_of[$1]}; do
        if ! is_option "$at"; then echo "$at" && return; fi
    done
    return 1
}

# reads_input COMMAND: it reads standard input where it is given no FILE.
reads_input() {
    local at
    [[ -n ${own_text_of[$1]} ]] && at=$(operand_of "$1") && may_lack "$at"
}

# range_of AT: what a row takes, in words: nothing of a flag, a file and a folder, whose names say it.
range_of() {
    local least most step
    case ${row_takes[$1]} in
        "" | file | folder) ;;
        [0-9]*)
            read -r least most step <<<"${row_takes[$1]}"
            echo "$least to $most, in decimal$([[ $step = 1 ]] || echo ", a multiple of $step")"
            ;;
        *) echo "${row_takes[$1]// /, }" ;;
    esac
}
