#!/bin/sh
# The README's C example is tests/c/example.c, compiles as the README says, with WARNINGS, and prints
# what it must: example.sh ARCHIVE WORKDIR
set -eu
lib=$1
work=$2

# The first block of C in the README that includes the header.
awk '$0 == "```c" { inside = 1; block = ""; next }
     inside && /^```/ { inside = 0; if (block ~ /back_ring\.h/) { printf "%s", block; exit } }
     inside { block = block $0 "\n" }' README.md > "$work/readme.c"
diff -u tests/c/example.c "$work/readme.c"
make -s -f c.mk install TOLLMEANDER_LIB="$lib" BUILD="$work/build" PREFIX="$work/prefix"
export PKG_CONFIG_LIBDIR="$work/prefix/lib/pkgconfig"
unset PKG_CONFIG_PATH
flags=$(pkg-config --cflags --libs tollmeander-host)
# shellcheck disable=SC2086
gcc -std=c99 ${WARNINGS:?} tests/c/example.c $flags -o "$work/example"
"$work/example" > "$work/example.out"
diff -u - "$work/example.out" <<'END'
60 bytes: hello from the guest
empty
done, 1 replied to
now notify the guest
END
