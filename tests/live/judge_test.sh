#!/bin/bash
# Tests the judge: a good result must pass, and each kind of complaint, written into it, must fail. Takes a second, and
# needs no Xen. Each test ends with a line 'ok NAME' or 'FAILED NAME', the run with 'judge: P passed, F failed'.
set -u
here=$(cd "$(dirname "$0")" && pwd)
# shellcheck source=tests/check.sh
. "$here/../check.sh" || exit 2
work=$(mktemp -d)
trap 'rm -rf "$work"' EXIT

cases='live halt refuse destroy'

# What a run of these cases says, shortened.
good_result() {
    cat << 'END'
dom0: Linux 6.1.0-55-amd64, Xen 4.17.7
dom0: ready at 8.14 s
=== live at 8.23 s
[guest] guest: begin of live on Linux 6.1.0-55-amd64
[guest] guest: ping -s 56: 3 packets transmitted, 3 packets received, 0% packet loss
[guest] guest: ping -s 1400: 3 packets transmitted, 3 packets received, 0% packet loss
[guest] talk: tcp 50 x 1 bytes came back as sent
[guest] talk: tcp 50 x 1000 bytes came back as sent
[guest] talk: tcp 20 x 30000 bytes came back as sent
[guest] talk: tcp 10 x 150000 bytes came back as sent
[guest] talk: udp 40 x 65489 bytes came back as sent
[guest] guest: ping -s 30000: 3 packets transmitted, 3 packets received, 0% packet loss
[guest] guest: dmesg: [    3.435455] Grant table initialized
[guest] guest: dmesg: [    6.805221] xen_netfront: Initialising Xen virtual ethernet driver
[guest] guest: end of live
dom0: host is alive, 0 ticks in 2 s
dom0: host ended with status 0
[host] vif 1/0: connected
[host] vif 1/0: the guest is gone
[host]          packets       bytes    slots most    gso   frames       bytes             not
[host] vif        taken       taken    taken in 1  taken    given       given dropped delivered  end
[host] 1/0          1007     4917836     2434   17     81     1698     4955118       0         0  the guest is gone
[host]     transmit: done 1007, empty 224, waiting 2
[host]     finished: okay 1007
[host]     receive: done 1698, no buffers 1
[host] 1 connections
=== halt at 50.00 s
END
    for how in 'transmit: overflow' 'transmit: misshapen' 'receive: overflow'; do
        printf '[guest] guest: ping, before: answered\n[guest] guest: no answer any more\n'
        printf '[guest] guest: ping, after: answered\n[guest] talk: tcp 5 x 30000 bytes came back as sent\n'
        printf '[host] 2/0 2 98 2 1 0 2 98 0 0  the guest broke the rules of the ring\n[host]     %s 1\n' "$how"
        printf '[host] 2/0 9 98 2 1 0 9 98 0 0  the guest is gone\n[host]     transmit: done 9\n'
        printf '[host]     finished: okay 9\n'
    done
    printf 'dom0: host ended with status 0\n'
    cat << 'END'
=== refuse at 80.00 s
[guest] guest: ping, with two receive pages not granted: answered
[guest] guest: ping, after a packet whose page is not granted: answered
[guest] talk: tcp 5 x 30000 bytes came back as sent
[guest] guest: dmesg: [    8.100000] net eth0: rx->offset: 0, size: -1
dom0: host ended with status 0
[host] 5/0 90 98000 91 1 0 100 84000 0 2  the guest is gone
[host]     transmit: done 90, empty 20, spoiled (page not granted) 1
[host]     finished: okay 90
[host]     receive: done 100, spoiled (page not granted) 2
=== destroy at 90.00 s
END
    for how in 1 2 3 4; do
        printf '[guest%s] guest: ping, first: answered\n' "$how"
        printf '[host] %s/0 700 98000 700 1 0 600 84000 0 1  the guest is gone\n' "$how"
        printf '[host]     transmit: done 700, spoiled (page not granted) 2\n[host]     finished: okay 700\n'
        printf '[host]     receive: done 600, spoiled (page not granted) 1\n'
    done
    printf '[guest] talk: tcp 40 x 150000 bytes came back as sent\n'
    printf '[guest] talk: udp 100 x 1400 bytes came back as sent\n'
    printf 'dom0: host ended with status 0\ndom0: done at 120.00 s\n'
}

# judge RESULT: of all of these cases.
judge() {
    # shellcheck disable=SC2086
    "$here/judge.sh" "$1" $cases > "$work/judged"
}

passes() {
    judge "$1" && grep -qx 'live: 4 passed, 0 failed' "$work/judged"
}

# refuses EDIT CASE TEXT: the good result with an edit of sed's fails in one case, and for that reason.
refuses() {
    sed -e "$1" "$work/good" > "$work/bad"
    if cmp -s "$work/good" "$work/bad"; then
        echo "the edit changes nothing"
        return 1
    fi
    if judge "$work/bad"; then return 1; fi
    if grep -q "^FAILED $2:.*$3" "$work/judged" && grep -qx 'live: 3 passed, 1 failed' "$work/judged"; then return; fi
    cat "$work/judged"
    return 1
}

good_result > "$work/good"
check 'a good result passes' passes "$work/good"
check 'an echo that failed' refuses 's/talk: udp 40 .*/talk: FAILED in round 3: echo/' live 'failed: in round 3'
check 'an echo that is missing' refuses '/talk: udp 40/d' live 'echo runs: 4 and not 5'
check 'a ping without an answer' refuses 's/ping, after: answered/FAILED: ping, after: no answer/' halt 'no answer'
check 'a packet lost' refuses '/-s 1400/s/3 packets received, 0%/2 packets received, 33%/' live 'packets lost'
check 'a page still in use' \
    refuses 's/\(.*dmesg: .*\)Initialising.*/&\n\1net eth0: Grant still in use by backend domain/' live 'still in use'
check 'an interface switched off, on the console' \
    refuses 's/^.guest. guest: end of live/[guest] [ 9.1] net eth0: Disabled for further use\n&/' live 'Disabled for'
check 'a guest that crashes' refuses 's/^.guest3. .*answered/&\n[guest3] [ 5.2] Oops: 0000 [#1]/' destroy 'Oops'
check 'a spoiled packet of an honest guest' \
    refuses 's/empty 224/&, spoiled (page not granted) 1/' live 'transmit answered spoiled (page not granted)'
check 'a refusal of another cause in destroy' \
    refuses '/=== destroy/,/dom0: done/s/spoiled (page not granted) 2/spoiled (bad gso) 2/' destroy 'spoiled (bad gso)'
check 'a halt of an honest guest' refuses 's/empty 224/&, overflow 1/' live 'transmit answered overflow'
check 'a host that lent something wrong' refuses 's/done 1698/&, bad frame length 1/' live 'receive answered bad frame'
check 'a frame dropped' refuses '/^.host. 1\/0 .*4917836/s/ 0         0 / 3         0 /' live 'frames dropped'
check 'a frame not delivered' refuses '/^.host. 1\/0 .*4917836/s/ 0         0 / 0         1 /' live 'not delivered'
check 'a ring that did not halt' refuses 's/transmit: misshapen 1/transmit: done 1/' halt 'not halted'
check 'a ring that halted twice' refuses 's/receive: overflow 1/receive: overflow 2/' halt 'not halted'
check 'a page that was not refused' refuses 's/^.*done 100, .*/[host]     receive: done 102/' refuse 'not refused as'
check 'another complaint where one is expected' \
    refuses 's/rx->offset: 0, size: -1/Too many slots/' refuse 'guest complains: net eth0: Too many slots'
check 'a packet that was never finished' refuses 's/okay 1007/okay 1006/' live 'packets not finished: 1;'
check 'packets of which nothing was said' refuses '/finished: okay 90/d' refuse 'packets not finished: 90;'
check 'a packet that was dropped' refuses 's/okay 1007/okay 1006, overdue 1/' live 'packets finished: overdue'
check 'a connection that is missing' refuses '/^.host. 3\/0/d' destroy 'connections: 3 and not 4'
check 'a host that failed' refuses '/=== live/,/=== halt/s/ended with status 0/ended with status 134/' live 'status 134'
check 'a host without an end' refuses '/=== live/,/=== halt/{/ended with status/d}' live 'hosts: 0 and not 1'
check 'a sanitizer' refuses 's/^.host. vif 1.0: connected/&\n[host] pages.c:9:3: runtime error: x/' live 'sanitizer'
check 'dom0: something failed' refuses 's/^dom0: host is alive.*/dom0: FAILED: guests left: 7/' live 'guests left: 7'
check 'a case that has not run' refuses '/=== destroy/,/host ended/d' destroy 'has not run'
check 'a machine that stopped' refuses '/^dom0: done/d' destroy 'dom0 has not come to its end'
check_result judge
