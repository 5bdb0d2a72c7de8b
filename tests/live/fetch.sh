#!/bin/bash
# Downloads Debian's packages and unpacks them below the work folder; nothing is installed.
#
# usage: tests/live/fetch.sh
#
# What is there is not fetched again: remove the work folder for newer packages. The list of what was fetched, with
# sums, is packages.txt there.
set -eu
# shellcheck source=tests/live/settings.sh
. "$(dirname "$0")/settings.sh"

# Says what is missing before anything is begun.
check_needs() {
    local free
    command -v apt-get > /dev/null || fail "apt-get is missing: packages come from Debian, by apt-get"
    command -v dpkg > /dev/null || fail "dpkg is missing: it unpacks the packages"
    [ "$(uname -m)" = x86_64 ] || fail "this machine is $(uname -m): the packages are for x86_64"
    [ "$(id -u)" = 0 ] || fail "apt-get downloads for root only: run as root"
    mkdir -p "$LIVE"
    free=$(df --output=avail -m "$LIVE" | tail -n 1)
    [ "$free" -ge "$MEGABYTES_NEEDED" ] ||
        fail "$LIVE has $((free)) MB of disk free, $MEGABYTES_NEEDED are needed; LIVE=.. names another folder"
}

# download FOLDER PACKAGES APT_OPTION...: the packages, and what they need, into the folder.
download() {
    local folder=$1 packages=$2
    shift 2
    mkdir -p "$folder/partial"
    # shellcheck disable=SC2086
    apt-get -y -q --no-install-recommends --download-only -o Dir::Cache::archives="$folder" "$@" \
        install $packages > "$LIVE/apt-get.log" 2>&1 && return
    cat "$LIVE/apt-get.log" >&2
    fail "packages could not be downloaded. Is there a network, and was 'apt-get update' run?" \
        "On another Debian than 12, XEN_VERSION=.. names its release of Xen"
}

# unpack FOLDER ROOT: every package of a folder.
unpack() {
    local package
    rm -rf "$2"
    mkdir -p "$2"
    for package in "$1"/*.deb; do
        if [ -e "$package" ]; then dpkg -x "$package" "$2"; fi
    done
}

if [ -e "$LIVE/packages.txt" ]; then
    echo "live: packages are there, in $DEBS"
    exit 0
fi
check_needs
echo "live: fetching packages into $DEBS"
download "$DEBS/host" "$HOST_PACKAGES"
# With no package said to be installed, apt-get fetches every library that dom0 needs.
: > "$DEBS/nothing-installed"
download "$DEBS/dom0" "$DOM0_PACKAGES" -o Dir::State::status="$DEBS/nothing-installed"
unpack "$DEBS/host" "$HOST_ROOT"
unpack "$DEBS/dom0" "$DOM0_ROOT"
(cd "$DEBS" && sha256sum ./*/*.deb) > "$LIVE/packages.part"
mv "$LIVE/packages.part" "$LIVE/packages.txt"
echo "live: $(wc -l < "$LIVE/packages.txt") packages, $(du -sm "$DEBS" | cut -f1) MB"
