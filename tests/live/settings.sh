# Where things are, and which of Debian's packages: sourced by the other scripts of this folder.
# shellcheck shell=bash disable=SC2034

# The release of Xen that Debian's packages are named for. Debian 12 has 4.17.
XEN_VERSION=${XEN_VERSION:-4.17}

# For this machine, as far as they are not installed. For dom0 and the guests, with all that they need.
HOST_PACKAGES='qemu-system-x86 cpio'
DOM0_PACKAGES="xen-hypervisor-$XEN_VERSION-amd64 xen-utils-$XEN_VERSION xenstore-utils linux-image-amd64
               libxen-dev busybox-static kmod"

HERE=$(cd "$(dirname "${BASH_SOURCE[0]}")" && pwd)
PROJECT=$(cd "$HERE/../.." && pwd)
LIVE=$(realpath -m "${LIVE:-$PROJECT/build/live}")

DEBS=$LIVE/debs                         # packages as downloaded
HOST_ROOT=$LIVE/host                    # unpacked, for this machine
DOM0_ROOT=$LIVE/dom0                    # unpacked, for dom0 and the guests
IMAGES=$LIVE/images                     # what QEMU boots
LIBRARIES=usr/lib/x86_64-linux-gnu      # below either root
XEN_PROGRAMS=usr/lib/xen-$XEN_VERSION/bin

MEGABYTES_NEEDED=1500                   # of disk; QEMU takes 2,500 of memory besides

# Ends the script with a message.
fail() {
    echo "live: $*" >&2
    exit 1
}

# The program NAME as it was unpacked, or as it is installed.
host_program() {
    local path
    for path in "$HOST_ROOT/usr/bin/$1" "$HOST_ROOT/bin/$1"; do
        if [ -x "$path" ]; then
            echo "$path"
            return
        fi
    done
    command -v "$1" || fail "$1 is neither unpacked nor installed"
}

# Runs a program that was unpacked with the libraries that were unpacked.
with_host_libraries() {
    LD_LIBRARY_PATH=$HOST_ROOT/$LIBRARIES:$HOST_ROOT/lib/x86_64-linux-gnu "$@"
}
