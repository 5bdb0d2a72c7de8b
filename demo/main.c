/*
 * Eight guests, eight devices and the host between them, in one process. Each guest shares two
 * ring pages with the host. They take turns; a side that sleeps runs again only when the other
 * has notified it, so a missing notification shows as packets that never arrive.
 *
 * Four guests post whole frames by host/front_ring. The others write slots of every good shape by
 * hand: three whose packets have faults that tollmeander_transmit_post does not make, and one that
 * fills its ring to the last slot.
 *
 * The devices confirm packets later and in any order. One fails some packets, one drops some, and
 * one forgets one: its guest stops, as replies leave in the order of taking, and the others go on.
 */
#include <inttypes.h>
#include <stdbool.h>
#include <stdint.h>
#include <stdio.h>

#include "events.h"
#include "guest.h"
#include "lapse.h"
#include "options.h"
#include "outcome.h"
#include "progress.h"
#include "table.h"
#include "vif.h"

enum {
    GUESTS = 8,
    FAILING = 1,            /* the device of guest 2, counted from 1 as the table does */
    CRASHING = 2,           /* guest 3 */
    DROPPING = 3,           /* the device of guest 4 */
    MISSHAPING = 4,         /* guest 5 */
    CARELESS = 6,           /* guest 7 */
    FORGETTING = 7,         /* the device of guest 8 */
    STEP = 100,             /* one packet in so many is spoiled, failed or dropped */
    ROUNDS_BEFORE_PROGRESS = 64,
    LATEST_WRAP = 1000
};

static struct frame_pool pool;
static struct traffic traffics[GUESTS];
static struct lapses lapses[GUESTS];
static struct events events[GUESTS];
static struct guest guests[GUESTS];
static struct vif vifs[GUESTS];

/* The packets that a guest sends, and the fault of the three that have one. */
static struct traffic plan_traffic(unsigned i, const struct options *options)
{
    struct traffic traffic = {
        .pool = &pool,
        .seed = options->seed * GUESTS + i,
        .packets = options->packets,
        .fault_first = options->packets / 2
    };

    if (i == CRASHING)
        traffic.fault = FAULT_CRASH;
    if (i == MISSHAPING)
        traffic.fault = FAULT_MISSHAPEN;
    if (i == CARELESS) {
        traffic.fault = FAULT_UNGRANTED;
        traffic.fault_first %= STEP;
        traffic.fault_step = STEP;
    }
    traffic.plain = traffic.fault == FAULT_NONE && i != FORGETTING;
    return traffic;
}

/* What the guest's device does with some packets. */
static struct lapses plan_lapses(unsigned i, const struct options *options)
{
    struct lapses some = { LAPSE_NONE, options->packets / 2 % STEP, STEP };

    if (i == FAILING)
        some.lapse = LAPSE_FAIL;
    if (i == DROPPING)
        some.lapse = LAPSE_DROP;
    if (i == FORGETTING)
        some = (struct lapses){ LAPSE_FORGET, options->packets / 2, 0 };
    return some;
}

/* A first counter from which the run goes through the wrap. */
static uint32_t first_counter(const struct options *options)
{
    uint64_t before_wrap = 1 + options->packets / 4;

    return (uint32_t)(0 - (before_wrap < LATEST_WRAP ? before_wrap : LATEST_WRAP));
}

static void open_all(const struct options *options)
{
    uint32_t counter = first_counter(options);

    frame_pool_fill(&pool, options->seed);
    for (unsigned i = 0; i < GUESTS; i++) {
        traffics[i] = plan_traffic(i, options);
        lapses[i] = plan_lapses(i, options);
        guest_open(&guests[i], &traffics[i], &lapses[i], &events[i], counter);
        vif_open(&vifs[i], &guests[i], &events[i], counter);
    }
    guests[FORGETTING].fills_ring = true;
}

/* A turn for every guest and for the host on every guest's rings; whether anyone was awake. */
static bool run_round(void)
{
    bool awake = false;

    for (unsigned i = 0; i < GUESTS; i++) {
        awake |= guest_turn(&guests[i]);
        awake |= vif_turn(&vifs[i]);
    }
    return awake;
}

/* Frames for which no buffers come are given up in the end, as a host does after a time. */
static bool give_up_frames(void)
{
    bool given_up = false;

    for (unsigned i = 0; i < GUESTS; i++)
        given_up |= vif_give_up_frame(&vifs[i]);
    return given_up;
}

static double run_all(const struct options *options)
{
    struct progress progress;

    progress_start(&progress);
    for (uint64_t round = 1; run_round() || give_up_frames(); round++) {
        uint64_t done = 0;

        if (round % ROUNDS_BEFORE_PROGRESS != 0)
            continue;
        for (unsigned i = 0; i < GUESTS; i++)
            done += vifs[i].device.next;
        progress_tell(&progress, done, GUESTS * options->packets);
    }
    return progress_end(&progress);
}

static bool check_all(void)
{
    bool right = true;

    for (unsigned i = 0; i < GUESTS; i++)
        right &= outcome_check(i + 1, &guests[i], &vifs[i]);
    return right;
}

int main(int argc, char **argv)
{
    struct options options;
    double seconds;
    bool right;

    if (!options_read(&options, argc, argv))
        return 2;
    if (options.help) {
        options_print_help();
        return 0;
    }
    open_all(&options);
    seconds = run_all(&options);
    right = check_all();
    table_print_head();
    for (unsigned i = 0; i < GUESTS; i++)
        table_print_line(i + 1, &guests[i], &vifs[i]);
    table_print_summary(guests, vifs, GUESTS, seconds);
    puts(right ? "all as it must be" : "NOT as it must be");
    return right ? 0 : 1;
}
