#!/bin/bash
# Builds and runs the tests that are written in Rust.
#
# usage: tests/run.sh LIBRARY_FOLDER
#
# LIBRARY_FOLDER holds libtollmeander.a. Each test ends with a line 'ok NAME' or 'FAILED NAME', the run with
# 'tests: P passed, F failed'. The exit status is 0 only if F is 0.

if [ $# -ne 1 ] || [ ! -f "$1/libtollmeander.a" ]; then
    echo "usage: tests/run.sh LIBRARY_FOLDER (the folder of libtollmeander.a)" >&2
    exit 2
fi
export TOLLMEANDER_LIB
TOLLMEANDER_LIB=$(realpath "$1")
cd "$(dirname "$0")" || exit 2
# shellcheck source=tests/check.sh
. ./check.sh || exit 2

program() {
    cargo run -q --release --offline -p "$@"
}

# The second program's lines for the stored ring pages and the examples are the stored ones.
replay() {
    program reference -- replay ../crates/replay/data | cmp - ../crates/replay/stdout
}

# The ring pages that the program `compare` reads are the stored ones, and no other; the second program's lines for their
# runs and for the generated ones are the stored lines.
divide() {
    local page
    for page in ../crates/replay/data/*/tx-ring.bin; do
        cmp "$page" "../crates/compare/data/${page#../crates/replay/data/}" || return 1
    done
    (cd ../crates/compare/data && printf '%s\n' */tx-ring.bin) | cmp - ../crates/compare/args &&
        program reference -- divide ../crates/compare/data | cmp - ../crates/compare/stdout
}

check build cargo build -q --release --offline --bins --tests
check reference cargo test -q --release --offline -p reference
check replay replay
check divide divide
check differential program differential -- run --seed 1 --cases 280000
check racing program differential -- racing --seconds 6
check mutants program mutants
check_result tests
