# shellcheck shell=bash disable=SC2154 # (whoever reads this has `kind`)
# What scripts of tests count, and what they print of it under their name for themselves, which is `kind`. Read by them.
passed=0
failed=0

# is WHAT WANTED SEEN
is() {
    if [ "$2" = "$3" ]; then
        passed=$((passed + 1))
    else
        failed=$((failed + 1))
        printf '%s: %s\n  wanted: %s\n  seen:   %s\n' "$kind" "$1" "$2" "$3"
    fi
}

# The script's last words, and whether nothing failed.
tell_counts() {
    echo "$kind: $passed passed, $failed failed"
    [ "$failed" = 0 ]
}
