/*
 * The host's side of one guest's network interface, which Xen calls a vif: takes the guest's
 * packets, hands the frames to its device, and delivers each frame back to the guest. A packet is
 * replied to when the device has confirmed it, and every packet before it.
 *
 * It sleeps when there is nothing to do, and only an event wakes it; where every record is in use,
 * only its device.
 */
#ifndef VIF_H
#define VIF_H

#include <stdbool.h>
#include <stdint.h>

#include "back_ring.h"
#include "confirmer.h"
#include "device.h"
#include "events.h"
#include "guest.h"

enum { VIF_RECORDS = 32 };                  /* packets that a device takes at once */

/* What the device has said of the packets that it got. */
struct finished {
    uint64_t okay, failed, dropped;
    uint64_t early;                         /* of these, before an older packet */
    uint64_t late;                          /* the guest was disconnected: nothing came of it */
};

struct vif {
    struct back_transmit transmit;
    struct back_receive receive;
    struct guest_memory memory;
    struct device device;
    struct confirmer confirmer;             /* of the device */
    struct events *events;
    bool awake;
    bool waits_for_device;
    bool disconnected;
    uint32_t last_answer;                   /* of a take */
    struct tollmeander_report last_spoiled;
    uint64_t spoiled;
    struct finished finished;
    uint64_t delivered;
    uint64_t given_up;                      /* frames for which no buffers came */
    uint64_t unexpected;                    /* answers that must not come, on either ring */
    uint32_t frame_len;                     /* of the frame that goes back; 0 if none */
    uint8_t frame[TOLLMEANDER_FRAME_MAX];
};

/* Connects a guest whose rings begin at a counter. */
void vif_open(struct vif *vif, struct guest *guest, struct events *events, uint32_t counter);

/* Hears the device, and serves the guest for some packets; whether there was work, or will be. */
bool vif_turn(struct vif *vif);

/* Gives up a frame that waits for buffers which nobody posts; whether there was one. */
bool vif_give_up_frame(struct vif *vif);

/* Slots that the vif's guest has posted and that are not replied to. */
uint32_t vif_open_slots(const struct vif *vif, const struct guest *guest);

#endif
