#!/bin/bash
# Boots Xen, dom0 and unmodified Linux guests under QEMU, serves the guests with tollmeander-xen, and judges.
#
# usage: tests/live/run.sh path/to/libtollmeander.a
#
#   LIVE=folder       work folder, build/live; what was fetched stays there
#   ONLY="live halt"  only these cases
#   LIVE_SANITIZE=1   the back end under the address and undefined-behaviour sanitizers
#   CPUS=2            processors of the emulated machine
#   LIMIT=3600        seconds for all cases together
#   PATIENCE=400      seconds for a step of a guest
#
# The run ends with 'live: P passed, F failed'; the exit status is 0 only if F is 0. What dom0, host and guests said is
# result.txt in the work folder.
set -eu
# shellcheck source=tests/live/settings.sh
. "$(dirname "$0")/settings.sh"

if [ $# -ne 1 ] || [ ! -f "$1" ]; then
    echo "usage: tests/live/run.sh path/to/libtollmeander.a" >&2
    exit 2
fi
library=$(realpath "$1")
cases=${ONLY:-live reload destroy two halt refuse detach second stop nonsense}
build=$LIVE/program${LIVE_SANITIZE:+-sanitized}

for case in $cases; do
    [ -f "$HERE/dom0/cases/$case" ] || fail "no case $case; there are:" "$(cd "$HERE/dom0/cases" && echo *)"
done
for tool in gcc make readelf gzip timeout; do
    command -v $tool > /dev/null || fail "$tool is missing"
done

# Says how long a step took.
step() {
    local begun=$SECONDS
    "$@" || fail "$(basename "$1") went wrong"
    echo "live: $(basename "$1") took $((SECONDS - begun)) s"
}

# Sets aside what the cases said: the machine's own messages are in serial.log.
keep_result() {
    tr -d '\r' < "$LIVE/serial.log" | grep -a -E '^(===|dom0:|\[[a-z0-9]+\] |scribble:)' > "$LIVE/result.txt" || true
    cat "$LIVE/result.txt"
}

# build_program: the back end, and its test over a pretended Xen.
build_program() {
    make -C "$PROJECT" -s -f live.mk xen xen-test XEN="$DOM0_ROOT" BUILD="$build" TOLLMEANDER_LIB="$library" \
        LIVE_SANITIZE="${LIVE_SANITIZE-}"
}

step "$HERE/fetch.sh"
step build_program
step "$HERE/pack.sh" "$build/tollmeander-xen" "$cases"
echo "live: booting; cases: $cases"
begun=$SECONDS
"$HERE/boot.sh" || echo "live: QEMU ended with status $?"
keep_result
echo "live: QEMU ran for $((SECONDS - begun)) s"
# shellcheck disable=SC2086
"$HERE/judge.sh" "$LIVE/result.txt" $cases
