#!/bin/sh
# The archive needs memmove and perhaps memset and nothing else, offers the four calls and nothing
# else, and can be linked into a position-independent program and a shared object:
# symbols.sh ARCHIVE WORKDIR
set -eu
lib=$1
work=$2
here=$(dirname "$0")

expect() {
    if [ "$2" != "$3" ]; then
        printf '%s: found\n%s\nmust be\n%s\n' "$1" "$2" "$3"
        exit 1
    fi
}

needed=$(nm -u "$lib" | awk '$1 == "U" && $2 != "memset" { print $2 }' | sort -u)
offered=$(nm -g --defined-only "$lib" | awk 'NF == 3 { print $2, $3 }' | sort -u)
expect 'undefined symbols beside memset' "$needed" memmove
expect 'defined symbols' "$offered" "T tollmeander_receive_put
T tollmeander_transmit_finish
T tollmeander_transmit_post
T tollmeander_transmit_take"

include="-I$here/../../include"
strict='-Wl,-z,text -Wl,-z,defs -Wl,--fatal-warnings'
# shellcheck disable=SC2086
gcc -fPIE -pie $include "$here/library_alone.c" "$lib" $strict -o "$work/pie"
# shellcheck disable=SC2086
gcc -shared -Wl,--whole-archive "$lib" -Wl,--no-whole-archive $strict -o "$work/libshared.so"
gcc "$include" "$here/library_alone.c" "$work/libshared.so" -Wl,-rpath,"$work" -o "$work/with-shared"
"$work/pie" > /dev/null
"$work/with-shared" > /dev/null
