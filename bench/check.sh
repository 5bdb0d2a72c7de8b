#!/bin/bash
# Tests plain C as the library is tested: the differential test and the racing guest, with plain C in the library's
# place. Then the bench's own calls by both, not timed. Each test ends with a line 'ok NAME' or 'FAILED NAME', the run
# with 'bench: P passed, F failed'. The exit status is 0 only if F is 0.
set -u
cd "$(dirname "$0")/.." || exit 2
. tests/check.sh || exit 2
BUILD=$(realpath -m "${BUILD:-build}")
library=${LIBRARY:-target/staticlib/libtollmeander.a}
export TOLLMEANDER_LIB=$BUILD/bench/yardstick
# A folder of its own, since the library's tests link the library.
export CARGO_TARGET_DIR=$BUILD/bench/tests

differential() {
    (cd tests && cargo run -q --release --offline -p differential -- "$@")
}

# gcc may put slow string instructions in the place of a call; see bench.mk.
copies_by_memcpy() {
    local object=$BUILD/bench/plain.o
    nm -u "$object" | grep -qw memcpy && ! objdump -d "$object" | grep -qw rep
}

# The calls of every row, by the library and by plain C.
agree() {
    make -s -f bench.mk BUILD="$BUILD" TOLLMEANDER_LIB="$library" "$BUILD/bench/bench" &&
        "$BUILD/bench/bench" --agree
}

check 'plain C: compiles without warnings' brief make -s -f bench.mk BUILD="$BUILD" bench-yardstick
check 'plain C: copies by memcpy' copies_by_memcpy
check 'plain C: differential' brief differential run --seed 1 --cases 30000
check 'plain C: racing guest' brief differential racing --seconds 2
check 'bench: the library and plain C leave the same in every row' brief agree
check_result bench
