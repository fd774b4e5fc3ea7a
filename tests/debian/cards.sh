# cards.sh GAME SLOTS: AisleRiot plays a game where it is asked to deal, and ends.
export GUILE_LOAD_PATH=$PWD GUILE_AUTO_COMPILE=0 GAME=$1 SLOTS=$2
rm -f played
/usr/games/sol --variation cards.scm >said 2>&1 &
for k in $(seq 1 400); do
    if [ -e played ] || [ -z "$(jobs -r)" ]; then break; fi
    [ $((k % 10)) != 1 ] || xdotool search --onlyvisible --name Cards windowfocus --sync key ctrl+d 2>said-of-keys
    sleep 0.1
done
for _ in $(seq 1 100); do
    [ -n "$(jobs -r)" ] || break
    xdotool search --onlyvisible --name Cards windowfocus --sync key ctrl+w 2>said-of-keys
    sleep 0.5
done
[ -z "$(jobs -r)" ] || { kill $!; echo "it had to be ended"; }
wait $!
echo "its status $?"
cat played
grep -a '^mpgc: ' said >&2 || true
