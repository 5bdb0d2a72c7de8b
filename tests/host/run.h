/*
 * A run of a guest's traffic over one ring by two threads, the guest's and the host's, and on
 * transmit a third, the device's. Each sleeps until another notifies it; a side that sleeps too
 * long is a stall.
 */
#ifndef RUN_H
#define RUN_H

#include <stdbool.h>
#include <stdint.h>

#include "channel.h"
#include "device.h"
#include "guest_pages.h"
#include "host_side.h"
#include "ring_page.h"
#include "rng.h"
#include "traffic.h"

/* Every run goes through the wrap of the counter. */
enum { FIRST_COUNTER = -1000 };

struct run {
    struct traffic traffic;
    struct ring_page page;      /* that both have mapped */
    struct guest_pages pages;
    struct rng rng;             /* the guest's */
    struct channel to_guest;
    struct host_side host;
};

/*
 * Reads the arguments (run_options.h) and opens all but the two ends of the ring. The packets are
 * plain, and the transmit pages to be written, where a poster sends.
 */
void run_open(struct run *run, int argc, char **argv, bool plain);

/* A number from 1 to most. */
uint32_t run_pick(struct run *run, uint32_t most);

/* Notifies the guest if the report of the host's call says so; then as host_is_done. */
bool run_is_done(struct run *run, const struct tollmeander_report *report, bool may_sleep);

/*
 * The host of a transmit ring: takes packets until the device has got all, and finishes each with
 * its status when it is confirmed.
 */
void run_take(struct run *run, struct device *device, bool (*may_sleep)(uint32_t answer),
              int32_t (*status_of)(uint64_t number));

/* Prints the end of a line about the run; whether neither side stalled and all was expected. */
bool run_ended_well(const struct run *run);

#endif
