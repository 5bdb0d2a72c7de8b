/*
 * A driver thread posts frames on a transmit ring by front_ring and sleeps until it is notified of
 * replies; the host takes them by back_ring and sleeps until it is notified of slots; a device
 * confirms them in any order. Every frame is checked byte for byte, and every packet is told with
 * its slots, pages and status; a side that sleeps too long is a stall.
 */
#include <inttypes.h>
#include <stdbool.h>
#include <stdint.h>
#include <stdio.h>

#include "dawdle.h"
#include "poster.h"
#include "run.h"
#include "threads.h"

enum {
    SHORT_BURST = 4,
    LONG_BURST = 300        /* more than the ring takes */
};

static struct run run;
static struct poster poster;
static struct device device;
static uint64_t full;       /* times that the ring took no more */

/* Many short bursts, so that both sides sleep often, and some that fill the ring. */
static uint32_t burst(void)
{
    return run_pick(&run, rng_below(&run.rng, 32) == 0 ? LONG_BURST : SHORT_BURST);
}

static void post_some(void)
{
    uint32_t left = burst();
    bool is_long = left > SHORT_BURST;

    for (; left > 0 && !poster_is_finished(&poster); left--) {
        bool notify;

        if (!poster_post(&poster, &notify)) {
            full++;
            return;
        }
        if (notify)
            channel_notify(&run.host.events);
        if (!is_long)
            dawdle(&run.rng);
    }
}

/* Sleeps until some of the packets in flight are replied to. */
static void sleep_for_replies(uint64_t in_flight)
{
    uint32_t awaited = run_pick(&run, (uint32_t)in_flight);

    while (!run.to_guest.stalled && front_ring_await(&poster.ring, awaited))
        channel_sleep(&run.to_guest);
}

static void run_driver(void)
{
    while (!run.to_guest.stalled && poster.unexpected == 0) {
        post_some();
        poster_collect(&poster);
        if (poster.sent > poster.replied)
            sleep_for_replies(poster.sent - poster.replied);
        else if (poster_is_finished(&poster))
            break;
    }
}

/* Packets are published whole, so the host never waits for the rest of one. */
static bool may_sleep(uint32_t answer)
{
    return answer == TOLLMEANDER_EMPTY;
}

/* The only one that the driver here takes for right. */
static int32_t status_of(uint64_t number)
{
    (void)number;
    return TOLLMEANDER_REPLY_OKAY;
}

static void run_host(void)
{
    run_take(&run, &device, may_sleep, status_of);
}

/* Whether all went as it must, and a line about it. */
static bool report_run(void)
{
    printf("post: %" PRIu64 " packets, %" PRIu64 " bytes, %" PRIu64 " wrong frames, %" PRIu64
           " replied to, %" PRIu64 " wrongly, ring full %" PRIu64 " times, %" PRIu64
           " unexpected answers to the driver, ",
           device.frames, device.bytes, device.wrong_frames, poster.replied, poster.wrong_replies,
           full, poster.unexpected);
    return run_ended_well(&run) && device.frames == run.traffic.packets &&
           poster.replied == run.traffic.packets && device.wrong_frames == 0 &&
           poster.wrong_replies == 0 && poster.unexpected == 0;
}

int main(int argc, char **argv)
{
    run_open(&run, argc, argv, true);
    poster_open(&poster, &run.page, &run.pages, &run.traffic, (uint32_t)FIRST_COUNTER);
    host_open_transmit(&run.host, &run.page, (uint32_t)FIRST_COUNTER, run.traffic.seed);
    device_open(&device, &run.traffic);
    threads_run(run_driver, run_host);
    return report_run() ? 0 : 1;
}
