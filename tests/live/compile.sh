#!/bin/bash
# Compiles xen/ with warnings as errors: against Debian's libxen-dev where it is there (XEN=/root for one that is
# unpacked), else against pretended/, which has of its headers what xen/ uses.
#
# usage: tests/live/compile.sh [path/to/libtollmeander.a]
#
# With the library it also runs queue_test.c, under sanitizers. The last line says what was done. The exit status is 0
# unless something failed, or XEN=/root names no libxen-dev.
set -u
if [ $# -gt 1 ] || { [ $# -eq 1 ] && [ ! -f "$1" ]; }; then
    echo "usage: tests/live/compile.sh [path/to/libtollmeander.a]" >&2
    exit 2
fi
library=${1:+$(realpath "$1")}
cd "$(dirname "$0")/../.." || exit 2
work=$(mktemp -d)
trap 'rm -rf "$work"' EXIT
root=${XEN-}
headers=

# step TARGET ARGUMENT...: of live.mk.
step() {
    make -s -f live.mk V=1 BUILD="$work" XEN="$root" "$@"
}

if ! step xen-there > "$work/missing" 2>&1; then
    if [ -n "$root" ]; then
        grep '^make xen:' "$work/missing"
        exit 1
    fi
    root=$PWD/tests/live/pretended
    headers=' (pretended headers: libxen-dev is not there)'
fi
if ! step xen-objects; then
    echo "xen/ does not compile$headers"
    exit 1
elif [ -z "$library" ]; then
    echo "xen/ compiles without warnings$headers"
elif step xen-test TOLLMEANDER_LIB="$library" BUILD="$work/sanitized" LIVE_SANITIZE=1; then
    echo "xen/ compiles without warnings, and its queues pass over a pretended Xen$headers"
else
    echo "xen/ compiles, but its queues fail over a pretended Xen$headers"
    exit 1
fi
