/*
 * A guest thread sends packets on a transmit ring and sleeps until it is notified of replies; the
 * host takes them and sleeps until it is notified of slots; a device confirms them in any order,
 * with every status. Every frame is checked byte for byte, and so is every reply; a side that
 * sleeps too long is a stall.
 */
#include <inttypes.h>
#include <stdbool.h>
#include <stdint.h>
#include <stdio.h>

#include "dawdle.h"
#include "run.h"
#include "sender.h"
#include "threads.h"

enum { SHORT_BURST = 4, LONG_BURST = 100 };

static struct run run;
static struct sender sender;
static struct device device;

/* Many short bursts, so that both sides sleep often, and some that fill the ring. */
static uint32_t burst(void)
{
    return run_pick(&run, rng_below(&run.rng, 8) == 0 ? LONG_BURST : SHORT_BURST);
}

static int32_t status_of(uint64_t number)
{
    return number % 5 == 3 ? TOLLMEANDER_REPLY_ERROR :
           number % 5 == 4 ? TOLLMEANDER_REPLY_DROPPED : TOLLMEANDER_REPLY_OKAY;
}

/* Has the data slots of a packet that was written whole expect its status. */
static void expect_status(uint64_t number, uint32_t first, uint32_t end)
{
    for (uint32_t n = first; n != end; n++) {
        struct expected_reply *reply = &sender.expected[n % TOLLMEANDER_RING_SLOTS];

        if (reply->status != TOLLMEANDER_REPLY_NULL)
            reply->status = (int16_t)status_of(number);
    }
}

/* Writes slots, packet by packet. */
static void write_slots(uint32_t left)
{
    uint32_t written;

    do {
        uint64_t number = sender.sent;
        uint32_t first = sender.complete;

        written = sender_write(&sender, 1);
        if (sender.sent > number)
            expect_status(number, first, sender.complete);
        left -= written;
    } while (written > 0 && left > 0);
}

/* Publishes what is written in pieces, wherever these end in a packet. */
static void publish_in_pieces(void)
{
    uint32_t left = sender.ring.written - sender.ring.published;

    while (left > 0) {
        uint32_t piece = run_pick(&run, left);

        if (slot_ring_publish(&sender.ring, piece))
            channel_notify(&run.host.events);
        left -= piece;
        dawdle(&run.rng);
    }
}

/* Sleeps until some of the replies that are due have come. */
static void sleep_for_replies(uint32_t due)
{
    uint32_t awaited = run_pick(&run, due);

    while (!run.to_guest.stalled && slot_ring_await(&sender.ring, awaited))
        channel_sleep(&run.to_guest);
}

static void run_guest(void)
{
    while (!run.to_guest.stalled) {
        uint32_t due;

        write_slots(burst());
        publish_in_pieces();
        sender_collect(&sender);
        due = sender.complete - sender.ring.replied;
        if (due == 0 && sender_is_finished(&sender))
            break;
        if (due > 0 && due <= TOLLMEANDER_RING_SLOTS)
            sleep_for_replies(due);
    }
}

static void run_host(void)
{
    run_take(&run, &device, host_may_sleep, status_of);
}

/* Whether all went as it must, and a line about it. */
static bool report_run(void)
{
    printf("transmit: %" PRIu64 " packets, %" PRIu64 " bytes, %" PRIu64 " wrong frames, %" PRIu64
           " wrong replies, ",
           device.frames, device.bytes, device.wrong_frames, sender.wrong_replies);
    return run_ended_well(&run) && device.frames == run.traffic.packets &&
           device.wrong_frames == 0 && sender.wrong_replies == 0;
}

int main(int argc, char **argv)
{
    run_open(&run, argc, argv, false);
    sender_open(&sender, &run.page, &run.pages, &run.traffic, (uint32_t)FIRST_COUNTER);
    host_open_transmit(&run.host, &run.page, (uint32_t)FIRST_COUNTER, run.traffic.seed);
    device_open(&device, &run.traffic);
    threads_run(run_guest, run_host);
    return report_run() ? 0 : 1;
}
