# A history of commits that is made by git, and read by Guile.
export GIT_AUTHOR_NAME=a GIT_AUTHOR_EMAIL=a@example.org GIT_COMMITTER_NAME=a GIT_COMMITTER_EMAIL=a@example.org GUILE_AUTO_COMPILE=0
git init -q -b main work && cd work || exit
for k in $(seq 1 60); do
    export GIT_AUTHOR_DATE="@$((1700000000 + k)) +0000" GIT_COMMITTER_DATE="@$((1700000000 + k)) +0000"
    seq "$k" $((k * 7)) >"file$((k % 10))"
    git add . && git commit -q -m "commit $k"
done
cd .. && guile --no-auto-compile history.scm
