#!/bin/sh
# After make install C programs are compiled by pkg-config alone, as C99 and as C++, with WARNINGS: one
# with the library, one with host/ too, which can be linked into a shared object: install.sh ARCHIVE WORKDIR
set -eu
lib=$1
work=$2
prefix=$work/prefix
warnings=${WARNINGS:?}

make -s -f c.mk install TOLLMEANDER_LIB="$lib" BUILD="$work/build" PREFIX="$prefix"
export PKG_CONFIG_LIBDIR="$prefix/lib/pkgconfig"
unset PKG_CONFIG_PATH

# Compiles a test's source as C99 and as C++, and runs it: build_and_run SOURCE PACKAGE
build_and_run() {
    flags=$(pkg-config --cflags --libs "$2")
    cp "tests/c/$1.c" "$work/program.c"
    cp "tests/c/$1.c" "$work/program.cc"
    for compiler in 'gcc -std=c99 program.c' 'g++ program.cc' 'g++ -std=c++98 program.cc'; do
        # shellcheck disable=SC2086
        (cd "$work" && $compiler $warnings $flags -o program && ./program > /dev/null)
    done
}

build_and_run library_alone tollmeander
build_and_run example tollmeander-host

flags=$(pkg-config --cflags --libs tollmeander-host)
# shellcheck disable=SC2086
gcc -std=c99 $warnings -fPIC -shared -Wl,-z,defs "$work/program.c" $flags -o "$work/program.so"
pkg-config --modversion tollmeander-host
