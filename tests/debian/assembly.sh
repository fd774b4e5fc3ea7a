# Programs of one form in C, which mescc compiles to assembly by Guile.
export GUILE_AUTO_COMPILE=0 SCHEME=guile
for k in $(seq 1 8); do
    sed "s/fib/fib$k/g; s/longest/longest$k/g; s/int main/int main$k/; s/struct word/struct word$k/g; /include/d" assembly.c
done >many.c
mescc -S many.c -o many.s 2>said || exit
cksum <many.s
grep -a '^mpgc: ' said >&2 || true
