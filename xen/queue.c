#include "queue.h"

#include <stdlib.h>
#include <sys/mman.h>
#include <time.h>

enum {
    STEPS_A_TURN = 16,              /* no guest may hold the host for longer */
    SECONDS_TO_WAIT = 10,           /* for buffers; then frames are dropped */
    SECONDS_A_PERIOD = 5            /* for the device; packets are dropped after one or two */
};

/* Never 0, which stands for no time. */
static int64_t seconds_now(void)
{
    struct timespec now;

    clock_gettime(CLOCK_MONOTONIC, &now);
    return (int64_t)now.tv_sec + 1;
}

static void *map_ring(const struct queue *queue, uint32_t reference)
{
    return xengnttab_map_grant_ref(queue->xen->grants, queue->offer.domid, reference,
                                   PROT_READ | PROT_WRITE);
}

/* NULL, or why not; what was done is undone by queue_disconnect. */
static const char *try_to_connect(struct queue *queue)
{
    if (!pages_open(&queue->pages, queue->xen->grants, queue->offer.domid))
        return "no memory for a window";
    queue->transmit_page = map_ring(queue, queue->offer.transmit_ring);
    if (!queue->transmit_page)
        return "the transmit ring's page cannot be mapped";
    queue->receive_page = map_ring(queue, queue->offer.receive_ring);
    if (!queue->receive_page)
        return "the receive ring's page cannot be mapped";
    queue->port = xenevtchn_bind_interdomain(queue->xen->events, queue->offer.domid,
                                             queue->offer.event_channel);
    if (queue->port < 0)
        return "the event channel cannot be bound";
    if (!back_transmit_open(&queue->transmit, queue->transmit_page, 0, QUEUE_RECORDS) ||
        !back_receive_open(&queue->receive, queue->receive_page, 0))
        return "a ring cannot be opened";
    queue->period = seconds_now();
    queue->awake = true;
    return NULL;
}

struct queue *queue_connect(const struct xen *xen, struct device *device,
                            const struct queue_offer *offer, const char **why)
{
    struct queue *queue = calloc(1, sizeof *queue);

    *why = "no memory for a queue";
    if (!queue)
        return NULL;
    queue->xen = xen;
    queue->device = device;
    queue->offer = *offer;
    queue->port = -1;
    *why = try_to_connect(queue);
    if (*why) {
        queue_disconnect(queue);
        return NULL;
    }
    return queue;
}

void queue_disconnect(struct queue *queue)
{
    if (queue->port >= 0)
        xenevtchn_unbind(queue->xen->events, (evtchn_port_t)queue->port);
    back_ring_close(&queue->transmit.ring);
    back_ring_close(&queue->receive.ring);
    if (queue->transmit_page)
        xengnttab_unmap(queue->xen->grants, queue->transmit_page, 1);
    if (queue->receive_page)
        xengnttab_unmap(queue->xen->grants, queue->receive_page, 1);
    pages_close(&queue->pages);
    free(queue);
}

const struct counters *queue_last_count(struct queue *queue)
{
    outbox_drop_all(&queue->outbox);
    queue->count.dropped = queue->outbox.dropped;
    return &queue->count;
}

void queue_on_event(struct queue *queue)
{
    queue->awake = true;
    queue->event_held = true;
}

/* Publishes, and does what the answer asks for; false if there is nothing to do for now. */
static bool go_on(struct queue *queue, struct back_ring *ring, uint32_t answer)
{
    queue->notify |= back_ring_publish(ring);
    switch (back_ring_next(answer)) {
    case BACK_GO_ON:
        return true;
    case BACK_SLEEP:
        return !back_ring_may_sleep(ring);
    case BACK_WAIT_FOR_DEVICE:
        queue->waits_for_device = true;
        return false;
    case BACK_DISCONNECT:
        queue->end = "the guest broke the rules of the ring";
        return false;
    case BACK_MEND:
        queue->end = "this host lent something wrong";
        return false;
    }
    return false;
}

/* Finishes a packet, and publishes the replies that leave; whether it was open. */
static bool finish(struct queue *queue, struct back_ticket ticket, int32_t status)
{
    struct tollmeander_report report;
    uint32_t answer = back_transmit_finish_copied(&queue->transmit, ticket, status, &report);

    queue->notify |= back_ring_publish(&queue->transmit.ring);
    if (report.slots > 0 && queue->waits_for_device) {
        queue->waits_for_device = false;
        queue->awake = true;
    }
    return answer == TOLLMEANDER_DONE;
}

bool queue_finish(struct queue *queue, struct back_ticket ticket, int32_t status)
{
    bool was_open = finish(queue, ticket, status);

    counters_finish(&queue->count, was_open, status);
    return was_open;
}

/*
 * Once in a period, drops the packets that were open when it began: they had a period at least, and
 * nothing is open for more than two.
 */
static void drop_overdue(struct queue *queue)
{
    const int64_t now = seconds_now();
    struct back_ticket ticket;

    if (now - queue->period < SECONDS_A_PERIOD)
        return;
    while (back_transmit_oldest(&queue->transmit, &ticket) &&
           (int32_t)(ticket.slot - queue->period_first) < 0 &&
           finish(queue, ticket, TOLLMEANDER_REPLY_DROPPED))
        queue->count.finish.overdue++;
    queue->period = now;
    queue->period_first = queue->transmit.ring.consumed;
}

/* Hands a packet over. A device that has too many drops it. */
static void hand_over(struct queue *queue, const struct tollmeander_report *report)
{
    struct back_ticket ticket = back_transmit_ticket(&queue->transmit, report);

    if (device_give(queue->device, ticket))
        answerer_take(&queue->answerer, queue->frame, report->total, &queue->outbox);
    else
        queue_finish(queue, ticket, TOLLMEANDER_REPLY_DROPPED);
}

/* Takes a packet; false if there is nothing to do until an event, or until the device confirms. */
static bool take(struct queue *queue)
{
    struct guest_memory memory = pages_transmit_memory(&queue->pages);
    struct back_ring *ring = &queue->transmit.ring;
    struct tollmeander_report report;

    back_ring_look(ring);
    pages_fetch_transmit(&queue->pages, ring);
    back_transmit_take_copied(&queue->transmit, &memory, queue->frame, sizeof queue->frame,
                              &report);
    pages_return_transmit(&queue->pages, ring, report.slots);
    counters_take(&queue->count, &report);
    if (report.answer == TOLLMEANDER_DONE)
        hand_over(queue, &report);
    return go_on(queue, ring, report.answer);
}

/* After an answer the oldest frame is done with, or it waits; false if it waits. */
static bool settle(struct queue *queue, uint32_t answer)
{
    if (answer == TOLLMEANDER_DONE || answer == TOLLMEANDER_SPOILED) {
        queue->waiting_since = 0;
        outbox_remove_front(&queue->outbox);
        return true;
    }
    queue->tried = seconds_now();
    if (queue->waiting_since == 0)
        queue->waiting_since = queue->tried;
    if (queue->tried - queue->waiting_since < SECONDS_TO_WAIT)
        return false;
    queue->waiting_since = 0;
    outbox_drop_all(&queue->outbox);
    return true;
}

/* Puts the oldest frame; false if there is nothing to do until an event. */
static bool put(struct queue *queue)
{
    struct guest_memory memory = pages_receive_memory(&queue->pages);
    struct back_ring *ring = &queue->receive.ring;
    struct tollmeander_report report;
    uint32_t length, place;
    const uint8_t *frame = outbox_front(&queue->outbox, &length);
    bool settled;

    if (length > TOLLMEANDER_PAGE_SIZE && !queue->offer.scatter_gather) {
        outbox_drop_front(&queue->outbox);
        return true;
    }
    back_ring_look(ring);
    pages_fetch_receive(&queue->pages, ring);
    back_receive_put_copied(&queue->receive, &memory, frame, length, &report);
    if (report.answer == TOLLMEANDER_DONE && !pages_deliver(&queue->pages, ring, length, &place))
        back_receive_refuse(&queue->receive, place, &report);
    pages_return_receive(&queue->pages, ring, report.slots);
    counters_put(&queue->count, &report);
    settled = settle(queue, report.answer);
    return go_on(queue, ring, report.answer) || settled;
}

/* The outbox empties before the next take: what waits is bounded, and the guest feels it. */
bool queue_turn(struct queue *queue)
{
    drop_overdue(queue);
    if (queue->waiting_since != 0 && queue->tried != seconds_now())
        queue->awake = true;
    for (int n = 0; n < STEPS_A_TURN && queue->awake && !queue->end; n++)
        queue->awake = outbox_is_empty(&queue->outbox) ? take(queue) : put(queue);
    if (queue->notify)
        xenevtchn_notify(queue->xen->events, (evtchn_port_t)queue->port);
    queue->notify = false;
    if (queue->event_held && !queue->awake) {
        xenevtchn_unmask(queue->xen->events, (evtchn_port_t)queue->port);
        queue->event_held = false;
    }
    return queue->awake && !queue->end;
}
