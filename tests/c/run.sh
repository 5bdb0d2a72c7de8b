#!/bin/bash
# The tests of the C side over a built archive: run.sh path/to/libtollmeander.a
# Each test ends with a line 'ok NAME' or 'FAILED NAME', the run with 'tests: P passed, F failed'. The exit status is 0
# only if F is 0.
set -u
if [ $# -ne 1 ] || [ ! -f "$1" ]; then
    echo "usage: tests/c/run.sh path/to/libtollmeander.a" >&2
    exit 2
fi
lib=$(realpath "$1")
cd "$(dirname "$0")/../.." || exit 2
. tests/check.sh || exit 2
work=$(mktemp -d)
trap 'rm -rf "$work"' EXIT
trap 'exit 1' HUP INT TERM

# What a strict user compiles with, for the scripts.
WARNINGS=$(make -s -f c.mk warnings) || exit 2
export WARNINGS

# Builds a program in the work folder.
build() {
    make -s V=1 -f c.mk "$work/build/$1" TOLLMEANDER_LIB="$lib" BUILD="$work/build"
}

# Builds a program and runs it.
program() {
    build "$1" && timeout 100 "$work/build/$1" "${@:2}"
}

demo() {
    build tollmeander-demo && timeout 100 sh tests/c/demo.sh "$work/build/tollmeander-demo" "$work"
}

check 'header: numbers and layouts, empty buffers, odd addresses' brief program tests/layout
check 'calls: take' brief program tests/take
check 'calls: finish' brief program tests/finish
check 'calls: put' brief program tests/put
check 'calls: post' brief program tests/post
check 'symbols: memmove and memset only, PIE, shared object' brief sh tests/c/symbols.sh "$lib" "$work"
check 'install: pkg-config, C99, C++, the library and host/' brief sh tests/c/install.sh "$lib" "$work"
check 'header: words of four octets do not compile' brief sh tests/c/old_table.sh "$work"
check 'example: as in the README' brief sh tests/c/example.sh "$lib" "$work"
check 'host: both ends serve C99 and C++' brief sh tests/host/headers.sh "$lib" "$work"
check 'host: a call on the other ring, or by a bare number, does not compile' brief \
      sh tests/host/two_types.sh "$work"
check 'host: edges' brief program tests/edges
check 'host: steps' brief program tests/steps
check "host: edges of the driver's end" brief program tests/front_edges
check 'host: every interleaving of one call' brief program tests/interleave
check 'host: every interleaving of one call of the driver' brief program tests/front_interleave
check 'host: edits that must fail' brief timeout 200 sh tests/host/must_fail.sh "$lib" "$work"
check 'host: transmit, 600,000 packets' brief program tests/transmit_run 600000
check 'host: receive, 1,000,000 frames' brief program tests/receive_run 1000000
check 'host: post and take, 300,000 packets' brief program tests/post_run 300000
check 'host: in steps, transmit, 200,000 packets' brief program tests/transmit_run 200000 2 steps
check 'host: in steps, receive, 300,000 frames' brief program tests/receive_run 300000 2 steps
check 'host: pages back before replies, 200,000 packets' brief program tests/returned 200000
check 'host: transmit, slots rewritten' brief program tests/hostile_transmit 100000
check 'host: receive, requests rewritten' brief program tests/hostile_receive 100000
check 'host: in steps, transmit, slots rewritten' brief program tests/hostile_transmit 50000 2 steps
check 'host: in steps, receive, requests rewritten' brief \
      program tests/hostile_receive 50000 2 steps
check 'host: transmit, thread sanitizer' brief program tsan/transmit_run 30000
check 'host: receive, thread sanitizer' brief program tsan/receive_run 30000
check 'host: post and take, thread sanitizer' brief program tsan/post_run 30000
check 'host: transmit, slots rewritten, thread sanitizer' brief program tsan/hostile_transmit 10000
check 'host: receive, requests rewritten, thread sanitizer' brief program tsan/hostile_receive 10000
check 'host: in steps, transmit, thread sanitizer' brief program tsan/transmit_run 20000 2 steps
check 'host: in steps, receive, thread sanitizer' brief program tsan/receive_run 20000 2 steps
check 'host: in steps, transmit, slots rewritten, thread sanitizer' brief \
      program tsan/hostile_transmit 10000 2 steps
check 'host: in steps, receive, requests rewritten, thread sanitizer' brief \
      program tsan/hostile_receive 10000 2 steps
check 'host: pages back before replies, thread sanitizer' brief program tsan/returned 20000
check 'live: the judge refuses what it must' brief tests/live/judge_test.sh
check 'xen: compiled, its queues over a pretended Xen' brief tests/live/compile.sh "$lib"
check 'demo: table, counts, options' brief demo
check_result tests
