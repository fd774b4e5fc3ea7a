# mail.sh [COUNT]: so many mails, which are indexed, and read by Guile.
export HOME=$PWD
mkdir -p Maildir/cur Maildir/new Maildir/tmp
for k in $(seq 1 "${1:-60}"); do
    printf 'From: a%d@example.org\nTo: b@example.org\nSubject: the %d. letter\nDate: Mon, 01 Jan 2024 10:00:%02d +0000\nMessage-Id: <%d@example.org>\n\nSome words of letter %d.\n' \
        $k $k $((k % 60)) $k $k >"Maildir/cur/$k.host:2,S"
done
mu init --quiet --muhome=mu --maildir="$PWD/Maildir" && mu index --quiet --muhome=mu || exit 1
mu find --muhome=mu --sortfield=subject --fields=s letter | md5sum
guile --no-auto-compile mail.scm
