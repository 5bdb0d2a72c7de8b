/*
 * The device behind all queues, as far as confirming goes: it is given the ticket of each packet,
 * and says later what has become of it. Queues may come and go meanwhile.
 *
 * This one has nothing to wait for: it confirms all that it was given when it is asked, the latest
 * first. Where a device works on a thread of its own, that hands its tickets over to the thread of
 * the queues.
 */
#ifndef TOLLMEANDER_DEVICE_H
#define TOLLMEANDER_DEVICE_H

#include <stdbool.h>
#include <stdint.h>

#include "back_ring.h"

enum { DEVICE_TICKETS = 1024 };

struct device {
    uint32_t count;                 /* packets that are not confirmed */
    struct back_ticket ticket[DEVICE_TICKETS];
};

/* Gives the device a packet; false if it has too many. */
bool device_give(struct device *device, struct back_ticket ticket);

/* A packet that the device has done, with the status for its reply; false if there is none. */
bool device_confirm(struct device *device, struct back_ticket *ticket, int32_t *status);

#endif
