# Trackballs plays a level whose functions in Guile work at each tick, until they have written what they came to.
export TRACKBALLS=$PWD/share SDL_AUDIODRIVER=dummy LIBGL_ALWAYS_SOFTWARE=1
mkdir share
cp -r /usr/share/games/trackballs/levels share
ln -s /usr/share/games/trackballs/{fonts,icons,images,music,sfx,shaders} share
cp share/levels/Shop1.map share/levels/level.map
cp marbles.scm share/levels/level.scm
/usr/games/trackballs -w -m -l level >said 2>&1 &
for _ in $(seq 1 60); do
    if [ -s played ] || [ -z "$(jobs -r)" ]; then break; fi
    xdotool mousemove 320 320 click 1
    sleep 1
done
for _ in $(seq 1 60); do
    [ -n "$(jobs -r)" ] || break
    xdotool key ctrl+q
    sleep 1
done
[ -z "$(jobs -r)" ] || { kill $!; echo "it had to be ended"; }
wait $!
echo "its status $?"
grep -a '^mpgc: ' said >&2 || true
