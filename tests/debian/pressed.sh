# Keys are pressed for which xbindkeys has functions in Guile, each when the last one has been noted; the first until it is.
export GUILE_AUTO_COMPILE=0
touch pressed
xbindkeys -n -fg bindings.scm >said 2>&1 &
has_lines() { [ "$(wc -l <pressed)" -ge "$1" ]; }
for _ in $(seq 1 100); do
    xdotool key ctrl+r
    sleep 0.5
    ! has_lines 1 || break
done
count=1
for key in a b c a a b c c c a b a c q; do
    count=$((count + 1))
    xdotool key "ctrl+$key"
    for _ in $(seq 1 600); do
        ! has_lines $count || break
        sleep 0.1
    done
done
for _ in $(seq 1 600); do
    [ -n "$(jobs -r)" ] || break
    sleep 0.1
done
[ -z "$(jobs -r)" ] || { kill $!; echo "it had to be ended"; }
wait $!
echo "its status $?"
grep -a '^mpgc: ' said >&2 || true
