#!/bin/bash
# Boots what pack.sh has made, in software emulation.
#
# usage: tests/live/boot.sh [shell]
#
# Without an argument dom0 runs the cases and powers off; what it says goes to serial.log in the work folder. With
# "shell" dom0's console is this terminal, and the cases can be run by hand: sh /live/case.sh NAME.
#
#   CPUS    processors of the emulated machine, 1
#   LIMIT   seconds after which QEMU is ended, 3600
set -eu
# shellcheck source=tests/live/settings.sh
. "$(dirname "$0")/settings.sh"

log=$LIVE/serial.log
mode=cases
serial=file:$log
if [ "${1-}" = shell ]; then
    mode=shell
    serial=mon:stdio
fi

# With a plain "max" dom0 dies at once in Xen's create_bounce_frame: hence la57, smap, smep, pku and pks. With xsave and
# avx, bytes that programs in a domain had copied were now and then wrong.
processor=max,-la57,-smap,-smep,-pku,-pks,-xsave,-avx,-avx2

xen_options='console=com1 com1=115200,8n1 dom0_mem=1024M,max:1024M dom0_max_vcpus=1'
xen_options+=' loglvl=warning guest_loglvl=warning spec-ctrl=no xpti=no smt=0 ucode=no'
kernel_options="console=hvc0 quiet mitigations=off live=$mode"

: > "$log"
cd "$IMAGES"
qemu=$(host_program qemu-system-x86_64)
with_host_libraries timeout --foreground "${LIMIT:-3600}" "$qemu" \
    -accel tcg,tb-size=512 -cpu "$processor" -smp "${CPUS:-1}" -m 2048 \
    -L "$HOST_ROOT/usr/share/qemu" -L "$HOST_ROOT/usr/share/seabios" \
    -display none -vga none -net none -no-reboot -serial "$serial" \
    -kernel xen -append "$xen_options" -initrd "vmlinuz $kernel_options,dom0.img"
