#!/bin/bash
# Makes what QEMU boots out of the unpacked packages: Xen, the kernel, and an initramfs for dom0 which has that of the
# guests in it.
#
# usage: tests/live/pack.sh PROGRAM CASES
#
# PROGRAM is the back end; CASES are the cases that dom0 is to run, between blanks.
set -eu
# shellcheck source=tests/live/settings.sh
. "$(dirname "$0")/settings.sh"
program=$1
cases=$2

kernel=$(basename "$DOM0_ROOT"/boot/vmlinuz-*)
version=${kernel#vmlinuz-}
modules=$LIVE/modules                   # all of the kernel's, with the list of what needs what
dom0=$LIVE/image-dom0
guest=$LIVE/image-guest

# Compiles the programs that run inside. They are static: nothing else need be packed for them.
compile() {
    local flags="-std=gnu11 -O2 -Wall -Wextra -Werror -static -isystem $DOM0_ROOT/usr/include -L$DOM0_ROOT/$LIBRARIES"
    # shellcheck disable=SC2086
    gcc $flags "$HERE/talk.c" -o "$LIVE/talk"
    # shellcheck disable=SC2086
    gcc $flags "$HERE/scribble.c" -o "$LIVE/scribble" \
        -lxenstore -lxengnttab -lxencall -lxentoollog -lxentoolcore -lpthread -ldl
}

# Lists which module needs which, once.
list_modules() {
    local to=$modules/lib/modules/$version
    if [ -f "$to/modules.dep" ]; then return; fi
    mkdir -p "$modules/lib"
    cp -a "$DOM0_ROOT/lib/modules" "$modules/lib/"
    (exec -a depmod "$DOM0_ROOT/bin/kmod" -b "$modules" "$version")
}

# The files of a module and of those that it needs: a line "FILE: FILE.." in the list.
files_of_module() {
    sed -n "s|^\(.*/${1//[-_]/[-_]}\.ko\):|\1|p" "$modules/lib/modules/$version/modules.dep" | tr ' ' '\n'
}

# add_modules IMAGE NAME...: modules, and those that they need.
add_modules() {
    local to=$1/lib/modules/$version from=$modules/lib/modules/$version name file
    shift
    mkdir -p "$to"
    cp "$from"/modules.{dep,alias,builtin,order} "$to/"
    for name in "$@"; do
        files_of_module "$name" | while read -r file; do
            mkdir -p "$(dirname "$to/$file")"
            cp "$from/$file" "$to/$file"
        done
    done
}

# The shared libraries that a program names.
needed_by() {
    readelf -d "$1" | sed -n 's/.*NEEDED.*\[\(.*\)\]/\1/p'
}

# add_libraries IMAGE PROGRAM: the shared libraries that it needs, and those that they need, into /lib/x.
add_libraries() {
    local image=$1 name from
    for name in $(needed_by "$2"); do
        if [ -e "$image/lib/x/$name" ]; then continue; fi
        for from in "$DOM0_ROOT/$LIBRARIES/$name" "$DOM0_ROOT/lib/x86_64-linux-gnu/$name" "$DOM0_ROOT/lib64/$name"; do
            if [ -e "$from" ]; then break; fi
        done
        [ -e "$from" ] || fail "$2 needs $name, which none of the packages has"
        cp -L "$from" "$image/lib/x/$name"
        add_libraries "$image" "$image/lib/x/$name"
    done
}

# add_program IMAGE PROGRAM FOLDER: with its libraries.
add_program() {
    mkdir -p "$1/$3"
    cp -L "$2" "$1/$3/"
    add_libraries "$1" "$2"
}

# begin IMAGE: an empty one with a shell, and the program that the kernel starts.
begin() {
    rm -rf "$1"
    mkdir -p "$1/bin" "$1/sbin" "$1/lib/x" "$1/lib64"
    cp "$DOM0_ROOT/bin/busybox" "$1/bin/"
    ln -s busybox "$1/bin/sh"
    cp "$2" "$1/init"
    chmod +x "$1/init"
}

# pack IMAGE FILE
pack() {
    local cpio
    cpio=$(host_program cpio)
    (cd "$1" && find . | with_host_libraries "$cpio" --quiet -o -H newc -R 0:0) | gzip -1 > "$2"
}

make_guest() {
    begin "$guest" "$HERE/guest/init"
    cp "$LIVE/talk" "$guest/bin/"
    cp -r "$HERE/guest/tests" "$guest/tests"
    add_modules "$guest" xen-netfront
    pack "$guest" "$IMAGES/guest.img"
}

# What the scripts in dom0 must know.
dom0_settings() {
    printf 'XEN_PROGRAMS=%s\nCASES="%s"\nPATIENCE=%s\n' "$XEN_PROGRAMS" "$cases" "${PATIENCE:-400}"
}

make_dom0() {
    local name
    begin "$dom0" "$HERE/dom0/init"
    cp -L "$DOM0_ROOT/lib64/ld-linux-x86-64.so.2" "$dom0/lib64/"
    cp -L "$DOM0_ROOT/lib/x86_64-linux-gnu/libgcc_s.so.1" "$dom0/lib/x/"
    for name in xl xenstored xenconsoled xen-init-dom0; do
        add_program "$dom0" "$DOM0_ROOT/$XEN_PROGRAMS/$name" "$XEN_PROGRAMS"
    done
    add_program "$dom0" "$DOM0_ROOT/usr/bin/xenstore" bin
    for name in read write ls rm; do ln -s xenstore "$dom0/bin/xenstore-$name"; done
    add_program "$dom0" "$program" bin
    cp "$LIVE/scribble" "$dom0/bin/"
    cp -r "$HERE/dom0" "$dom0/live"
    chmod +x "$dom0/live/vif-script"
    cp "$DOM0_ROOT/boot/$kernel" "$dom0/live/vmlinuz"
    cp "$IMAGES/guest.img" "$dom0/live/"
    dom0_settings > "$dom0/live/settings"
    add_modules "$dom0" xenfs xen-evtchn xen-gntdev xen-gntalloc xen-privcmd
    pack "$dom0" "$IMAGES/dom0.img"
}

mkdir -p "$IMAGES"
compile
list_modules
make_guest
make_dom0
cp "$DOM0_ROOT/boot/$kernel" "$IMAGES/vmlinuz"
zcat "$DOM0_ROOT/boot/xen-$XEN_VERSION-amd64.gz" > "$IMAGES/xen"
