#!/usr/bin/env bash
# For the full test alone: where there is no Chromium for tests/viewer.sh, it is installed, if this is root on a Debian with a network, within five
# minutes. What isn't there then is said, and left out by tests/viewer.sh; so this never fails.
set -uo pipefail
room=$(mktemp -d)
trap 'rm -rf "$room"' EXIT
trap 'exit 143' INT TERM HUP
export DEBIAN_FRONTEND=noninteractive

# left_out WHY: what the full test doesn't test.
left_out() {
    echo "viewer: left out: the tests of the page in a browser: there is no Chromium, and $*"
    exit 0
}

# within SECONDS COMMAND..: apt's own words are kept.
within() {
    timeout "$1" "${@:2}" >"$room/said" 2>&1 </dev/null
}

! command -v "${CHROMIUM:-chromium}" >/dev/null || exit 0
[ -z "${CHROMIUM-}" ] || left_out "CHROMIUM names another"
[ "$(id -u)" = 0 ] || left_out "only root can install it"
command -v apt-get >/dev/null || left_out "there is no apt-get"
within 90 apt-get update -o APT::Update::Error-Mode=any -o Acquire::Retries=0 ||
    left_out "apt-get doesn't reach its lists: $(tail -n 1 "$room/said")"
within 150 apt-get install -y --no-install-recommends --download-only chromium || left_out "it can't be fetched: $(tail -n 1 "$room/said")"
within $((300 - SECONDS)) apt-get install -y --no-install-recommends chromium || left_out "it can't be installed: $(tail -n 1 "$room/said")"
echo "viewer: Chromium was installed"
