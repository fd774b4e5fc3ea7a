# shellcheck shell=bash
# What mailutils' tests of mda, lmtpd, putmail and inc do, with the letter of its source, and the same with filters in Sieve and Scheme
# (tests/debian/filter.scm), as a suite of compared.sh. Letters go to boxes in the folder. To where mda puts them by itself, /var/mail, a
# folder of the suite's own is bound, which only root may do.

# sessions LETTER: files session.1 and so on, each with a longer letter.
sessions() {
    local k
    for k in 1 2 3 4; do
        {
            printf 'LHLO localhost\nMAIL FROM:<gulliver@example.net>\nRCPT TO:<root@localhost>\nDATA\n'
            sed "s/^Subject: .*/Subject: Travels $k/" "$1"
            seq $((k * 300)) | sed 's/$/ more words/'
            printf '.\nQUIT\n'
        } | sed 's/$/\r/' >session.$k
    done
}

# box FILES..: letters without what differs by nature.
box() { cat "$@" | grep -v '^From \|^X-IMAPbase:\|^X-UID:'; }

# Run in a process that is named by its first word.
mda_plain() {
    mount --bind "$PWD/mail" /var/mail || return
    for _ in 1 2 3 4 5; do mda --stderr -f gulliver@example.net root <letter || return; done
    box mail/root
}
mda_envelope() {
    mount --bind "$PWD/mail" /var/mail || return
    { echo 'From gulliver Thu Oct  7 19:10:57 2010' && cat letter; } | mda --stderr -f gulliver@example.net root || return
    box mail/root
}
mda_with() {
    for _ in 1 2 3; do mda --stderr "$@" -f gulliver@example.net root <letter || return; done
    box boxes/*
}
lmtpd_with() {
    local k
    for k in 1 2 3 4; do
        lmtpd --no-config --set "|mailbox|mailbox-pattern=mbox://$PWD/boxes/\${user}" --set .auth.authorization=system --set 'group=()' --stderr \
            "$@" --inetd <session.$k | sed 's/ .*//'
    done
    box boxes/*
}
putmail_plain() {
    for _ in 1 2 3; do putmail --from gulliver@example.net "mbox:$PWD/boxes/out" <letter || return; done
    box boxes/*
}
inc_plain() {
    export HOME=$PWD/boxes
    mkdir -p boxes/Mail/inbox
    echo "Path: $PWD/boxes/Mail" >boxes/.mh_profile
    for _ in 1 2 3 4 5 6 7 8 9; do echo 'From gulliver Thu Oct  7 19:10:57 2010' && cat letter && echo; done >many
    /usr/bin/mu-mh/inc -file "$PWD/many" -truncate || return
    box boxes/Mail/inbox/*
}
guimb_words() {
    for _ in 1 2 3 4 5 6 7 8 9; do echo 'From gulliver Thu Oct  7 19:10:57 2010' && cat letter && echo; done >many
    touch boxes/all
    guimb -M "mbox:$PWD/boxes/all" -e '(begin (load (string-append (getcwd) "/filter.scm"))
        (module-define! (resolve-module (quote (scheme guimb))) (quote guimb-message) mailutils-check-message))' many || return
    box boxes/*
}

mailutils_suite() {
    local name
    export GUILE_AUTO_COMPILE=0 BOX=$PWD/boxes/box
    cp "$2/mda/tests/input.msg" letter
    # shellcheck disable=SC2154 # (of who calls)
    cp "$top/tests/debian/filter.scm" .
    echo "require [\"fileinto\"]; if header :contains \"subject\" \"Travels\" { fileinto \"mbox:$PWD/boxes/travels\"; stop; }" >filter.sieve
    sessions letter
    export -f box mda_plain mda_envelope mda_with lmtpd_with putmail_plain inc_plain guimb_words
    : >"$1.said"
    for name in mda_plain mda_envelope 'mda_with -l sieve -s filter.sieve' 'mda_with -l scheme -s filter.scm' lmtpd_with \
        'lmtpd_with -l sieve -s filter.sieve' 'lmtpd_with -l scheme -s filter.scm' putmail_plain inc_plain guimb_words; do
        rm -rf boxes mail
        mkdir boxes mail
        # shellcheck disable=SC2086,SC2016 # (words; and the script of another shell)
        tried "$1" "$3" 300 "${name// /_}" unshare --mount bash -c '"$0" "$@"' ${name//filter/$PWD/filter}
    done
    compared "$1" "$3"
}
