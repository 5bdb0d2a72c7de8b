/*
 * The host's side of a test of threads: its end of the ring, and how its calls go. Where the test
 * asks for it, calls are made in steps, and pages are mapped as slots name them. Packets that are
 * taken are finished when a device has confirmed them.
 */
#ifndef HOST_SIDE_H
#define HOST_SIDE_H

#include <stdbool.h>
#include <stdint.h>

#include "back_ring.h"
#include "channel.h"
#include "device_thread.h"
#include "mapping.h"

/* Few enough that the device is waited for at times. */
enum { HOST_RECORDS = 40 };

struct host_side {
    struct back_transmit transmit;  /* a test has one of the two */
    struct back_receive receive;
    struct guest_memory memory;     /* the guest's, with all that it grants */
    bool in_steps;
    struct mapping mapping;         /* in steps: what is mapped now */
    struct channel events;          /* that come to it, from its guest and its device */
    struct device_thread device;        /* on transmit */
    uint64_t unexpected;            /* answers that neither guest nor device give a reason for */
    uint64_t waits;                 /* for the device, with every record in use */
    uint64_t behind;                /* packets finished while an older one was open */
};

/* Opens all but the two ends of the ring, which begin at a counter. */
void host_open(struct host_side *host, const struct guest_memory *memory, uint32_t counter,
               bool in_steps);

/* back_transmit_take and back_receive_put, at once or in steps. */
uint32_t host_take(struct host_side *host, uint8_t *frame, size_t frame_len,
                   struct tollmeander_report *report);
uint32_t host_put(struct host_side *host, const uint8_t *frame, size_t frame_len,
                  struct tollmeander_report *report);

/* Opens the transmit ring at a counter, and the device behind it. */
void host_open_transmit(struct host_side *host, struct ring_page *page, uint32_t counter,
                        uint64_t seed);

/* Hands the packet of a take that is done to the device, which will confirm it with a status. */
void host_hand_over(struct host_side *host, const struct tollmeander_report *report,
                    int32_t status);

/* Finishes what the device has confirmed, at once or in steps; whether to notify the guest. */
bool host_finish_confirmed(struct host_side *host);

/* Whether packets are held. */
bool host_holds(const struct host_side *host);

/* Whether the host may sleep for the guest after an answer. */
bool host_may_sleep(uint32_t answer);

/*
 * Whether a call is done; if not, the host sleeps, where it may, or where it waits for the device,
 * or the answer is unexpected.
 */
bool host_is_done(struct host_side *host, uint32_t answer, bool may_sleep);

/* Whether there was neither a stall nor an unexpected answer. */
bool host_goes_on(const struct host_side *host);

#endif
