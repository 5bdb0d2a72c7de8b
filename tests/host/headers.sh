#!/bin/sh
# Both ends of a ring and the names, compiled as C11, serve a program in C99 and in C++, with WARNINGS:
# headers.sh ARCHIVE WORKDIR
set -eu
lib=$1
work=$2
flags="${WARNINGS:?} -Iinclude -Ihost"

# shellcheck disable=SC2086
for part in back_ring front_ring names; do
    gcc -std=c11 $flags -c "host/$part.c" -o "$work/$part.o"
done
cp tests/host/both_ends.c "$work/both_ends.cc"
for compiler in 'gcc -std=c99 tests/host/both_ends.c' "g++ $work/both_ends.cc" \
                "g++ -std=c++98 $work/both_ends.cc"; do
    # shellcheck disable=SC2086
    $compiler $flags "$work/back_ring.o" "$work/front_ring.o" "$work/names.o" "$lib" -o "$work/both_ends"
    "$work/both_ends"
done
