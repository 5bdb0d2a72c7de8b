#!/bin/sh
# A short run of the demo, its table, and its answers to bad options: demo.sh DEMO WORKDIR
set -eu
demo=$1
work=$2

says() {
    grep -q -e "$1" "$2" || { echo "no '$1' in:"; cat "$2"; exit 1; }
}

# line GUEST PACKETS SPOILED ERROR DROPPED NO_REPLY LAST_ANSWER_AND_STATE: a line of the table.
line() {
    says "^ *$1 > $1  *$2  *[0-9][0-9]*  *$3  *$4  *$5  *$6  *$7" "$work/table"
}

"$demo" --packets 3000 --seed 7 > "$work/table"
line 1 3000 0 0 0 0 'empty  *sound; all sent, all delivered back$'
line 2 3000 0 30 0 0 'empty  *sound; told what the device did not do$'
line 3 1500 0 0 0 2 'waiting  *crashed, 2 of 3 slots posted'
line 4 3000 0 0 30 0 'empty  *sound; told what the device did not do$'
line 5 1500 0 0 0 '[0-9]*' 'misshapen  *halted and disconnected'
line 6 3000 0 0 0 0 'empty  *sound; all sent, all delivered back$'
line 7 2970 30 0 0 0 'empty  *sound; spoiled by cause 4 (page not granted) at place 2$'
line 8 1532 0 0 0 256 'no record  *stopped: a packet is never confirmed; the others went on$'
# All but the packet that is never confirmed; most of them not in the order of taking.
says '^19501 packets confirmed by the devices, 1[0-9]\{4\} of them before an older one$' "$work/table"
says '^[0-9]\{5\} replies in the order of the slots, each with its id and status: 0 wrong$' "$work/table"
says '^all as it must be$' "$work/table"
for packets in 1 2 99; do
    "$demo" --packets=$packets --seed=$packets > "$work/table"
done
"$demo" --help > "$work/help"
says '^Usage: ' "$work/help"

for bad in '--packets' '--packets 0' '--packets -1' '--packets 1x' '--packets 1000000001' '--seed' \
           '--seed 18446744073709551616' '--seed=' '--packetsx 1' '--verbose' 'word'; do
    status=0
    # shellcheck disable=SC2086
    "$demo" $bad > "$work/out" 2> "$work/err" || status=$?
    if [ "$status" -ne 2 ] || [ -s "$work/out" ]; then
        echo "bad option '$bad': status $status"
        exit 1
    fi
    says "Try 'tollmeander-demo --help'" "$work/err"
done
