#!/usr/bin/env bash
# tests/debian/bookmark.sh: w3m's programs for its own pages, as it calls them: one writes a page of bookmarks, the other shows a form.
printf 1 >cookie
post() { printf "%s" "$2" | REQUEST_METHOD=POST CONTENT_LENGTH=${#2} LOCAL_COOKIE_FILE=cookie "/usr/lib/w3m/cgi-bin/$1"; }
for k in $(seq 1 100); do
    post w3mbookmark "mode=register&cookie=1&bmark=bookmarks.html&url=http://a/$k&title=The+page+$k&section=Pages&newsection=Part+$((k % 5))"
done
post w3mhelperpanel "mode=mailcap&cookie=1"
