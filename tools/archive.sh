#!/bin/bash
# Proves crates/tollmeander_c over its libraries and builds target/staticlib/libtollmeander.a from it, for any x86-64.
#
# usage: tools/archive.sh [--proved]
#
# `rt lib` proves each library again that only `rt ci` has proved. With --proved the libraries are taken as `rt ci` has just
# left them, in seconds.
set -eu
if [ $# -gt 1 ] || [ "${1---proved}" != --proved ]; then
    echo "usage: tools/archive.sh [--proved]" >&2
    exit 2
fi
cd "$(dirname "$0")/.."
crate=tollmeander_c
made=out/lib$crate.a

# What `rt lib` runs once the libraries are built.
build_over_proved() {
    local kit name uses words
    kit=$(dirname "$(rt doc)")
    words=(--extern "std=$kit/rlibs/std.rlib" -L "dependency=$kit/rlibs")
    read -ra uses < <(sed -n "s/^$crate staticlib: *//p" crates.txt)
    for name in "${uses[@]}"; do
        words+=(--extern "$name=../$name/out/rlib/$name.rlib")
    done
    for name in crates/*/out/rlib; do
        words+=(-L "dependency=../../$name")
    done
    words+=(--antt-project "$kit/rattle/logic/antt-project.json" --logic-built "$kit/logic_built")
    cd "crates/$crate"
    mkdir -p out
    rattle build --crate-name "$crate" src/lib.rt "${words[@]}" --crate-type staticlib --cpu x86-64 \
        --toolchain "$kit/toolchain" -o "$made"
}

if [ $# -eq 1 ]; then
    (build_over_proved)
else
    (cd "crates/$crate" && rt lib --cpu x86-64)
fi
mkdir -p target/staticlib
cp "crates/$crate/$made" target/staticlib/libtollmeander.a
