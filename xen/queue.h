/*
 * A guest's connected queue: its two ring pages, its event channel, and the answerer behind
 * them. Lives from the guest's state "connected" to its "closing"; a fresh connection is a
 * fresh queue.
 *
 * A packet is held from its take until the device has confirmed it, and every packet before it; or
 * until a time limit, when it is dropped.
 */
#ifndef TOLLMEANDER_QUEUE_H
#define TOLLMEANDER_QUEUE_H

#include <stdbool.h>
#include <stdint.h>

#include "answerer.h"
#include "back_ring.h"
#include "counters.h"
#include "device.h"
#include "outbox.h"
#include "pages.h"
#include "xen.h"

enum { QUEUE_RECORDS = 32 };         /* packets that are held at once */

/* What a guest offers in XenStore. */
struct queue_offer {
    uint16_t domid;
    uint32_t transmit_ring;         /* grant references of the ring pages */
    uint32_t receive_ring;
    uint32_t event_channel;
    bool scatter_gather;            /* the guest takes frames of more than a page */
};

struct queue {
    const struct xen *xen;
    struct device *device;          /* that packets are given to */
    struct queue_offer offer;
    void *transmit_page, *receive_page;     /* the guest has them mapped too */
    int port;                       /* of the event channel; -1 if not bound */
    struct back_transmit transmit;
    struct back_receive receive;
    struct pages pages;
    struct outbox outbox;
    struct answerer answerer;
    struct counters count;
    int64_t period;                 /* seconds: when the period of the time limit began */
    uint32_t period_first;          /* the counter of slots consumed at that time */
    int64_t waiting_since;          /* seconds: the outbox waits for buffers; 0 if it does not */
    int64_t tried;                  /* seconds: the last time while it waits */
    bool awake;                     /* there may be something to do */
    bool waits_for_device;          /* every record is in use */
    bool event_held;                /* an event is not acknowledged before the work is done */
    bool notify;
    const char *end;                /* why the queue must be disconnected; NULL if it need not */
    uint8_t frame[TOLLMEANDER_FRAME_MAX];
};

/* A connected queue, or NULL with a word on why. The guest may have posted slots already. */
struct queue *queue_connect(const struct xen *xen, struct device *device,
                            const struct queue_offer *offer, const char **why);

/* What was counted, before disconnecting: frames that wait still are dropped. */
const struct counters *queue_last_count(struct queue *queue);

/* Also for a guest that is gone. Tickets that are out finish nothing any more. */
void queue_disconnect(struct queue *queue);

/* The guest has notified. The event channel stays masked until there is nothing to do. */
void queue_on_event(struct queue *queue);

/*
 * The device's word on a packet of this connection: its replies leave as soon as those before
 * them. False, with nothing changed, if the packet is finished already, also by the time limit.
 * The next turn notifies the guest.
 */
bool queue_finish(struct queue *queue, struct back_ticket ticket, int32_t status);

/* Serves some packets; whether there is more to do at once. Not once end is set. */
bool queue_turn(struct queue *queue);

/* Whether packets are held. */
static inline bool queue_holds(const struct queue *queue)
{
    return queue->transmit.replied != queue->transmit.ring.consumed;
}

/*
 * Whether frames wait for buffers, or packets for the device. Then a turn is due each second,
 * also without an event: not every guest notifies of buffers, and nothing waits for ever.
 */
static inline bool queue_waits(const struct queue *queue)
{
    return queue->waiting_since != 0 || queue_holds(queue);
}

#endif
