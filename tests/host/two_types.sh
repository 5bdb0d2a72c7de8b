#!/bin/sh
# A take or a finish on a receive ring does not compile, nor a put on a transmit ring, nor a finish by
# a bare number: in C++ at all, in C with WARNINGS: two_types.sh WORKDIR
set -eu
work=$1

# How many of the two compilers take a call.
compilers() {
    cat > "$work/two_types.c" <<END
#include "back_ring.h"
static struct back_transmit transmit;
static struct back_receive receive;
int main(void)
{
    const struct guest_memory memory = { 0, 0, 0, 0 };
    static uint8_t frame[60];
    struct tollmeander_report report;
    struct back_ticket ticket = { 0, 0 };

    $1;
    (void)transmit, (void)receive, (void)memory, (void)frame, (void)ticket;
    return report.answer == 0;
}
END
    cp "$work/two_types.c" "$work/two_types.cc"
    count=0
    # shellcheck disable=SC2086
    gcc -std=c99 ${WARNINGS:?} -Iinclude -Ihost -c "$work/two_types.c" -o "$work/two_types.o" \
        2> /dev/null && count=$((count + 1))
    g++ -Iinclude -Ihost -c "$work/two_types.cc" -o "$work/two_types.o" 2> /dev/null &&
        count=$((count + 1))
    echo "$count"
}

must() {
    [ "$(compilers "$2")" -eq "$1" ] || { echo "not $1 of two compilers take $2"; exit 1; }
}

must 2 'back_transmit_take(&transmit, &memory, frame, 60, &report)'
must 0 'back_transmit_take(&receive, &memory, frame, 60, &report)'
must 2 'back_transmit_take_copied(&transmit, &memory, frame, 60, &report)'
must 0 'back_transmit_take_copied(&receive, &memory, frame, 60, &report)'
must 2 'back_transmit_finish(&transmit, ticket, 0, &report)'
must 0 'back_transmit_finish(&receive, ticket, 0, &report)'
must 0 'back_transmit_finish(&transmit, report.ticket, 0, &report)'
must 2 'back_transmit_finish_copied(&transmit, ticket, 0, &report)'
must 0 'back_transmit_finish_copied(&receive, ticket, 0, &report)'
must 0 'back_transmit_finish_copied(&transmit, report.ticket, 0, &report)'
must 2 'back_receive_put(&receive, &memory, frame, 60, &report)'
must 0 'back_receive_put(&transmit, &memory, frame, 60, &report)'
must 2 'back_receive_put_copied(&receive, &memory, frame, 60, &report)'
must 0 'back_receive_put_copied(&transmit, &memory, frame, 60, &report)'
echo 'calls on the other ring, or by a bare number, do not compile'
