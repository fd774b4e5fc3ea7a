# shellcheck shell=bash disable=SC2034,SC2154 # (mpheap has the other names, and reads these)
# Part of the wrapper mpheap, read by it: which word of a command line is wrong, and whether its FILE can be read. Options and FILE stand in
# any order, and the program is given them in the one that it takes. Nothing but a FILE that looks like an option is refused here
# that a program takes; what it refuses is refused with its own last line and its own status.

# What was read: the command; its options, each with its value; its FILE or folder; and all words that are no option's.
command='' file=''
declare -A given=()
operands=()

# Says what is wrong with the words, how they are used, and last what the program says of them, which does what is no command.
bad_words() {
    local last=${own_text_of[${command:-run}]}
    say "$*"
    if [[ -n $command ]]; then
        printf "usage: mpheap %s\n'mpheap help %s' says more\n" "$(form "$command")" "$command" >&2
    else
        echo "'mpheap help' says how it is used" >&2
    fi
    [[ -z $last ]] || echo "$last" >&2
    answers 2
}

# is_number WORD LEAST MOST: the word is a number of this range in decimal, without a sign or a leading zero.
is_number() {
    [[ $1 =~ ^(0|[1-9][0-9]*)$ ]] && is_at_most "$1" "$3" && is_at_most "$2" "$1"
}

# is_at_most NUMBER OTHER: also where the shell can't count to them.
is_at_most() {
    if [[ ${#1} = "${#2}" ]]; then [[ ! $1 > $2 ]]; else [[ ${#1} -lt ${#2} ]]; fi
}

# is_multiple NUMBER STEP: of a number that the shell may not count to, the last 15 digits tell it.
is_multiple() {
    local last=$1
    [[ ${#last} -lt 16 ]] || last=1${last: -15}
    ((last % $2 == 0))
}

# is_below_end FROM BYTES: a heap of so many bytes from there on ends below 2^64, which is 18446744073709551616.
is_below_end() {
    [[ $1 != 1844674407?????????? ]] || ((1${1#??????????} + $2 < 13709551616))
}

# look_at_value AT WORD: the word is what the row takes.
look_at_value() {
    local name=${row_name[$1]} least most step
    case ${row_takes[$1]} in
        file) ;; # (one of no name isn't there, as the program says of it)
        folder) [[ -n $2 ]] || bad_words "'$name' lacks its folder: '' is none" ;;
        [0-9]*)
            read -r least most step <<<"${row_takes[$1]}"
            is_number "$2" "$least" "$most" || bad_words "'$2' is no number for '$name': $(range_of "$1")"
            is_multiple "$2" "$step" || bad_words "'$2' is no number for '$name': it is no multiple of $step"
            ;;
        *)
            is_in "$2" "${row_takes[$1]}" ||
                bad_words "'$2' is no word for '$name', only $(range_of "$1")$(nearest "$2" "${row_takes[$1]}")"
            ;;
    esac
}

# look_at_option WORD: the row of an option, which is given once.
look_at_option() {
    at=$(row_of "$command" "$1") || bad_words "'$command' has no option '$1'$(nearest "$1" "$(options_of "$command")")"
    [[ ! -v given[$1] ]] || bad_words "'$1' is given twice"
    given[$1]=
}

# lacks AT: an option stands where nothing follows that could be its value.
lacks() {
    case ${row_takes[$1]} in
        file) bad_words "'${row_name[$1]}' lacks its file" ;;
        [0-9]*) bad_words "'${row_name[$1]}' lacks its number" ;;
        *) bad_words "'${row_name[$1]}' lacks a word: $(range_of "$1")" ;;
    esac
}

# look_at_operand WORD: a word that is no option's.
look_at_operand() {
    local at
    at=$(operand_of "$command") || bad_words "'$command' takes no word '$1'"
    [[ ${#operands[@]} = 0 || ${row_form[at]} = *..* ]] || bad_words "'$1' is a second ${row_name[at]}, behind '${operands[0]}'"
    look_at_value "$at" "$1"
    operands+=("$1")
}

# read_words COMMAND WORD..: looks at all words of a command line.
read_words() {
    local word at='' are_options=yes is_value=''
    is_in "$1" "${commands[*]}" || bad_words "'$1' is no command$(nearest "$1" "${commands[*]} $(options_of top)")"
    command=$1
    shift
    for word in "$@"; do
        if [[ -n $is_value ]]; then
            ! row_of "$command" "${word%%=*}" >/dev/null || [[ $word != --* ]] || lacks "$at"
            look_at_value "$at" "$word"
            given[${row_name[at]}]=$word is_value=''
        elif [[ $are_options = no ]]; then
            look_at_operand "$word"
        else
            case $word in
                --) are_options=no ;;
                --*=*)
                    look_at_option "${word%%=*}"
                    ! is_flag "$at" || bad_words "'${word%%=*}' takes no value"
                    look_at_value "$at" "${word#*=}"
                    given[${word%%=*}]=${word#*=}
                    ;;
                -h | --help) given[--help]= && return ;;
                -?*) look_at_option "$word" && { is_flag "$at" || is_value=yes; } ;;
                *) look_at_operand "$word" ;;
            esac
        fi
    done
    [[ ! -v given[--help] && ! -v given[--version] ]] || return 0
    [[ -z $is_value ]] || lacks "$at"
    look_for_missing
}

# Says which word the command lacks, if it lacks one, and which ones don't go together.
look_for_missing() {
    local at name
    for at in ${rows_of[$command]}; do
        name=${row_name[at]}
        if is_option "$at" && ! may_lack "$at" && [[ ! -v given[$name] ]]; then bad_words "'$command' lacks '$name'"; fi
    done
    if [[ $command = replay ]]; then look_at_range; fi
    if [[ -v given[--run] ]]; then
        [[ ${#operands[@]} = 0 ]] || bad_words "'${operands[0]}' is a second FILE, behind '${given[--run]}'"
        operands=("${given[--run]}")
    fi
    file=${operands[0]-}
    at=$(operand_of "$command") || return 0
    [[ ${#operands[@]} != 0 ]] || may_lack "$at" || bad_words "'$command' lacks its ${row_name[at]}"
}

# Says what is wrong with the range of a run's heap.
look_at_range() {
    local pages=${given[--pages]-} bytes=${given[--bytes]-} from=${given[--from]-}
    if [[ -z $pages$bytes && ${given[--places]-} != any ]]; then
        bad_words "'replay' lacks '--pages', or '--places any' for a run that says its range itself"
    fi
    [[ -n $pages$bytes || -z $from ]] || bad_words "'replay' lacks '--pages' or '--bytes': '--from' says only where the heap begins"
    [[ -z $pages || -z $bytes ]] || bad_words "'--pages' and '--bytes' say the same of a heap"
    if [[ ${given[--places]-} != any ]]; then
        [[ -z $from ]] || bad_words "'--from' is for '--places any' alone"
        [[ -z $bytes ]] || bad_words "'--bytes' is for '--places any' alone"
    fi
    is_below_end "$from" "${bytes:-$((4096 * ${pages:-0}))}" || bad_words "a heap from '$from' on has its end past 2^64 - 1"
}

# program_words: puts the words for the program into `words`, FILE last, which has a name there that looks like no option.
program_words() {
    local at name path
    words=("$command")
    for at in ${rows_of[$command]}; do
        name=${row_name[at]}
        [[ -v given[$name] ]] || continue
        words+=("$name")
        path=${given[$name]}
        if [[ ${row_takes[at]} = file ]]; then path=$(as_path "$path"); fi
        if [[ $name != --run ]] && ! is_flag "$at"; then words+=("$path"); fi
    done
    if [[ -n $file ]]; then words+=("$(as_path "$file")"); fi
    if [[ $command = draw && -z $file ]]; then words+=(/dev/stdin); fi
}

as_path() {
    case $1 in
        -*) echo "./$1" ;;
        *) echo "$1" ;;
    esac
}

# Says which file can't be read and why, and last what the program says of it.
bad_file() {
    say "$*"
    echo "read fault" >&2
    exit 1
}

look_at_file() {
    if [[ ! -e $1 ]]; then
        bad_file "there is no file '$1'"
    elif [[ -d $1 ]]; then
        bad_file "'$1' is a folder"
    elif [[ ! -r $1 ]]; then
        bad_file "'$1' may not be read"
    fi
}
