# Runs in dom0: one case, a file of /live/cases, made of these steps. A line with FAILED is the judge's business.
# shellcheck shell=dash disable=SC3043

now() {
    cut -d' ' -f1 /proc/uptime
}

failed() {
    echo "dom0: FAILED: $*"
}

# The back end begins to serve.
host() {
    tollmeander-xen > /tmp/host.log 2>&1 &
    hostpid=$!
}

# start NAME TEST: a guest that runs a test, a file of its /tests.
start() {
    xl create /live/guest.cfg "name=\"$1\"" "extra=\"console=hvc0 quiet net.ifnames=0 test=$2\"" \
        > /tmp/xl.log 2>&1 && return
    failed "xl create $1"
    cat /tmp/xl.log
}

# await NAME TEXT: until the guest has said so on its console.
await() {
    local seconds=0
    while ! grep -q "$2" "/var/log/xen/guest-$1.log" 2> /dev/null; do
        sleep 1
        seconds=$((seconds + 1))
        if [ $seconds -ge "$PATIENCE" ]; then
            failed "$1 has not said in $PATIENCE s: $2"
            return 1
        fi
    done
}

# What a guest has said on its console so far: its test's lines, and what its kernel complains of.
said() {
    local complaints='netfront|vif|eth[0-9]|rant|g\.e\.|Disabled for|BUG|WARNING|Oops|Call Trace|panic|hung|segfault'
    local log=/var/log/xen/guest-$1.log
    [ -e "$log" ] || return
    tr -d '\r' < "$log" | grep -a -E "^(guest|talk): |$complaints" | sed "s/^/[$1] /"
    rm -f "$log"
}

destroy() {
    local from
    from=$(now)
    xl destroy "$1" || failed "xl destroy $1"
    echo "dom0: $1 destroyed, from $from to $(now) s"
    sleep 1
}

# The states of a guest's vif, ours first. Waits for the ones that are expected.
states() {
    local domid back front seconds=0
    domid=$(xl domid "$1")
    while :; do
        back=$(xenstore-read "backend/vif/$domid/0/state")
        front=$(xenstore-read "/local/domain/$domid/device/vif/0/state")
        if [ "$back $front" = "$2 $3" ] || [ $seconds -ge 20 ]; then break; fi
        sleep 1
        seconds=$((seconds + 1))
    done
    if [ "$back $front" = "$2 $3" ]; then
        echo "dom0: states: backend $back, frontend $front"
    else
        failed "states: backend $back, frontend $front, not $2 and $3"
    fi
}

ticks() {
    awk '{ print $14 + $15 }' "/proc/$hostpid/stat"
}

# The back end has not ended, and does nothing when there is nothing to do.
idle() {
    local before after
    if ! kill -0 "$hostpid" 2> /dev/null; then
        failed "host has ended"
        return
    fi
    before=$(ticks)
    sleep 2
    after=$(ticks)
    echo "dom0: host is alive, $((after - before)) ticks in 2 s"
    if [ $((after - before)) -gt 20 ]; then failed "host is busy with nothing to do"; fi
}

# No guest is left, nor a vif in XenStore.
clean() {
    local left
    left=$(xl list | tail -n +3)
    if [ -n "$left" ]; then failed "guests left: $left"; fi
    left=$(xenstore-ls backend/vif 2> /dev/null)
    if [ -n "$left" ]; then failed "vifs left in XenStore: $left"; fi
    echo "dom0: looked for guests and vifs left"
}

# host_said TEXT: waits until the back end has said so.
host_said() {
    local seconds=0
    while ! grep -q -e "$1" /tmp/host.log; do
        sleep 1
        seconds=$((seconds + 1))
        if [ $seconds -ge 20 ]; then
            failed "host has not said: $1"
            return 1
        fi
    done
    echo "dom0: host has said: $1"
}

show_host() {
    sed 's/^/[host] /' /tmp/host.log
}

# The back end is asked to stop, and shows its table.
finish() {
    kill -TERM "$hostpid"
    wait "$hostpid"
    echo "dom0: host ended with status $?"
    show_host
}

# shellcheck source=/dev/null
. /live/settings
# shellcheck source=/dev/null
. "/live/cases/$1"
