# book.sh [COUNT]: a book of so many transactions, and reports of it.
{
    cat <<'HEAD'
<?xml version="1.0" encoding="utf-8" ?>
<gnc-v2 xmlns:gnc="http://www.gnucash.org/XML/gnc" xmlns:act="http://www.gnucash.org/XML/act" xmlns:book="http://www.gnucash.org/XML/book"
 xmlns:cd="http://www.gnucash.org/XML/cd" xmlns:cmdty="http://www.gnucash.org/XML/cmdty" xmlns:slot="http://www.gnucash.org/XML/slot"
 xmlns:split="http://www.gnucash.org/XML/split" xmlns:trn="http://www.gnucash.org/XML/trn" xmlns:ts="http://www.gnucash.org/XML/ts">
<gnc:count-data cd:type="book">1</gnc:count-data>
<gnc:book version="2.0.0">
<book:id type="guid">00000000000000000000000000000001</book:id>
<gnc:commodity version="2.0.0"><cmdty:space>CURRENCY</cmdty:space><cmdty:id>EUR</cmdty:id></gnc:commodity>
HEAD
    account() {
        printf '<gnc:account version="2.0.0"><act:name>%s</act:name><act:id type="guid">%032x</act:id><act:type>%s</act:type>' "$1" "$2" "$3"
        [ "$3" = ROOT ] || printf '<act:commodity><cmdty:space>CURRENCY</cmdty:space><cmdty:id>EUR</cmdty:id></act:commodity><act:commodity-scu>100</act:commodity-scu><act:parent type="guid">%032x</act:parent>' 16
        echo '</gnc:account>'
    }
    account Root 16 ROOT
    account Bank 17 BANK
    for k in $(seq 1 20); do account "Kind $k" $((17 + k)) EXPENSE; done
    split() {
        printf '<trn:split><split:id type="guid">%032x</split:id><split:reconciled-state>n</split:reconciled-state><split:value>%d/100</split:value><split:quantity>%d/100</split:quantity><split:account type="guid">%032x</split:account></trn:split>' "$1" "$2" "$2" "$3"
    }
    for k in $(seq 1 "${1:-400}"); do
        printf '<gnc:transaction version="2.0.0"><trn:id type="guid">%032x</trn:id><trn:currency><cmdty:space>CURRENCY</cmdty:space><cmdty:id>EUR</cmdty:id></trn:currency>' $((1000 + k))
        printf '<trn:date-posted><ts:date>2024-%02d-%02d 10:59:00 +0000</ts:date></trn:date-posted><trn:date-entered><ts:date>2024-12-01 10:59:00 +0000</ts:date></trn:date-entered>' $((k % 12 + 1)) $((k % 28 + 1))
        printf '<trn:description>buys %d</trn:description><trn:splits>' "$k"
        split $((100000 + k)) $((k * 37)) $((18 + k % 20))
        split $((200000 + k)) $((-k * 37)) 17
        echo '</trn:splits></gnc:transaction>'
    done
    echo '</gnc:book></gnc-v2>'
} >book.gnucash
for report in 'Account Summary' 'Balance Sheet' 'Income Statement' 'Cash Flow' 'Trial Balance'; do
    gnucash-cli --report run --name "$report" book.gnucash
done
