#!/bin/sh
# Counts instructions under callgrind, where valgrind is there, then runs the bench: run.sh path/to/bench [OPTION...]
set -u
if [ $# -lt 1 ]; then
    echo "usage: bench/run.sh path/to/bench [OPTION...]" >&2
    exit 2
fi
program=$1
shift
work=$(mktemp -d)
trap 'rm -rf "$work"' EXIT
trap 'exit 1' HUP INT TERM

# Instructions a call. Callgrind counts within the eight functions, and writes a file after each ring.
count() {
    valgrind -q --tool=callgrind --callgrind-out-file="$work/out" \
        --toggle-collect=tollmeander_transmit_take --toggle-collect=tollmeander_transmit_finish \
        --toggle-collect=tollmeander_receive_put --toggle-collect=tollmeander_transmit_post \
        --toggle-collect=plain_transmit_take --toggle-collect=plain_transmit_finish \
        --toggle-collect=plain_receive_put --toggle-collect=plain_transmit_post \
        --dump-after=drain_ring "$program" --count > "$work/calls" || return 1
    ring=0
    while read -r calls; do
        ring=$((ring + 1))
        awk -v calls="$calls" '$1 == "summary:" { print $2 / calls }' "$work/out.$ring" || return 1
    done < "$work/calls"
}

if command -v valgrind > /dev/null && ! count > "$work/instructions"; then
    echo "bench: callgrind could not count" >&2
    rm -f "$work/instructions"
fi
"$program" --instructions "$work/instructions" "$@"
