/*
 * The host puts frames onto a receive ring and sleeps where there are no buffers; a guest thread
 * posts buffers, sleeps until it is notified, and checks every frame byte for byte. A side that
 * sleeps too long is a stall.
 */
#include <inttypes.h>
#include <stdbool.h>
#include <stdint.h>
#include <stdio.h>

#include "dawdle.h"
#include "receiver.h"
#include "run.h"
#include "threads.h"

enum { FRAME_PAGES = 16, FEWEST_BUFFERS = 18, MOST_BUFFERS = 64 };

static struct run run;
static struct receiver receiver;
static uint64_t bytes;      /* of the frames put */

/* Posts buffers in pieces until some dozens are outstanding; their number. */
static uint32_t post_in_pieces(void)
{
    struct slot_ring *ring = &receiver.ring;
    uint32_t goal = FEWEST_BUFFERS + rng_below(&run.rng, MOST_BUFFERS - FEWEST_BUFFERS);

    while (ring->written - ring->replied < goal) {
        uint32_t left = goal - (ring->written - ring->replied);
        uint32_t count = receiver_write(&receiver, run_pick(&run, left));

        if (slot_ring_publish(ring, count))
            channel_notify(&run.host.events);
        dawdle(&run.rng);
    }
    return ring->written - ring->replied;
}

/*
 * Sleeps until some replies have come: no more than there are frames to come, and than the host
 * gives before too few buffers are left for the longest frame.
 */
static void sleep_for_replies(uint32_t buffers, uint64_t frames_to_come)
{
    uint32_t sure = buffers - FRAME_PAGES + 1;
    uint32_t most = frames_to_come < sure ? (uint32_t)frames_to_come : sure;
    uint32_t awaited = run_pick(&run, most);

    while (!run.to_guest.stalled && slot_ring_await(&receiver.ring, awaited))
        channel_sleep(&run.to_guest);
}

static void run_guest(void)
{
    while (!run.to_guest.stalled && receiver.wrong_replies == 0) {
        uint32_t buffers = post_in_pieces();

        sleep_for_replies(buffers, run.traffic.packets - receiver.frames);
        receiver_collect(&receiver);
        if (receiver.frames == run.traffic.packets)
            break;
    }
}

/* Puts one frame, or sleeps where there are no buffers; whether it is put. */
static bool put(const uint8_t *frame, uint32_t length)
{
    struct tollmeander_report report;
    uint32_t answer = host_put(&run.host, frame, length, &report);

    if (!run_is_done(&run, &report, host_may_sleep(answer)))
        return false;
    if (report.total != length)
        run.host.unexpected++;
    bytes += length;
    return true;
}

static void run_host(void)
{
    static uint8_t frame[TOLLMEANDER_FRAME_MAX];

    for (uint64_t number = 0; number < run.traffic.packets && host_goes_on(&run.host); number++) {
        struct packet packet;

        traffic_packet(&run.traffic, number, &packet);
        traffic_frame(&run.traffic, number, packet.length, frame);
        while (!put(frame, packet.length) && host_goes_on(&run.host))
            ;
    }
}

/* Whether all went as it must, and a line about it. */
static bool report_run(void)
{
    printf("receive: %" PRIu64 " frames, %" PRIu64 " bytes, %" PRIu64 " wrong frames, %" PRIu64
           " wrong replies, ",
           receiver.frames, bytes, receiver.wrong_frames, receiver.wrong_replies);
    return run_ended_well(&run) && receiver.frames == run.traffic.packets &&
           receiver.wrong_frames == 0 && receiver.wrong_replies == 0;
}

int main(int argc, char **argv)
{
    run_open(&run, argc, argv, false);
    receiver_open(&receiver, &run.page, &run.pages, &run.traffic, (uint32_t)FIRST_COUNTER);
    back_receive_open(&run.host.receive, &run.page, (uint32_t)FIRST_COUNTER);
    threads_run(run_guest, run_host);
    return report_run() ? 0 : 1;
}
