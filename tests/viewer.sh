#!/usr/bin/env bash
# Tests of the page in viewer/: it is opened in browsers with each trace of viewer/examples/. It needs node 20 or later and
# Chromium, and tries Firefox where it is there; in Debian: apt-get install nodejs chromium firefox-esr. Where node or Chromium
# isn't there, or doesn't start, it says that it is skipped. It takes one to two minutes, and leaves nothing behind.
set -uo pipefail
top=$(dirname "$(dirname "$(readlink -f "${BASH_SOURCE[0]}")")")
chromium=${CHROMIUM:-chromium}

skip() {
    echo "viewer: skipped: $*: 0 passed, 0 failed"
    exit 0
}

for tool in node "$chromium"; do
    command -v "$tool" >/dev/null || skip "there is no $tool"
done
node -e 'process.exit(Number(process.versions.node.split(".")[0]) < 20 ? 1 : 0)' || skip "node $(node --version) is older than 20"
timeout 180 "$chromium" --headless=new --no-sandbox --disable-gpu --dump-dom about:blank >/dev/null 2>&1 || skip "$chromium doesn't start"
room=$(mktemp -d)
child=
trap '[ -z "$child" ] || kill "$child" 2>/dev/null; wait; rm -rf "$room"' EXIT
trap 'exit 143' INT TERM HUP
TMPDIR=$room timeout 1500 node "$top/viewer/test.mjs" &
child=$!
wait "$child"
status=$?
child=
exit "$status"
