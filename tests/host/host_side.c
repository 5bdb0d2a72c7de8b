#include "host_side.h"

void host_open(struct host_side *host, const struct guest_memory *memory, uint32_t counter,
               bool in_steps)
{
    host->memory = *memory;
    host->in_steps = in_steps;
    mapping_open(&host->mapping, memory, counter);
    channel_open(&host->events);
}

/* The steps that are the same on both rings: unmapping, publishing, going to sleep. */
static bool goes_on(struct host_side *host, struct back_ring *ring,
                    const struct tollmeander_report *report, bool *notify)
{
    mapping_unmap(&host->mapping, ring, report->slots);
    *notify |= back_ring_publish(ring);
    return host_may_sleep(report->answer) && !back_ring_may_sleep(ring);
}

static uint32_t take_in_steps(struct host_side *host, uint8_t *frame, size_t frame_len,
                              struct tollmeander_report *report)
{
    struct guest_memory mapped = mapping_memory(&host->mapping);
    bool notify = false;

    back_ring_look(&host->transmit.ring);
    do {
        mapping_map(&host->mapping, &host->transmit.ring);
        back_transmit_take_copied(&host->transmit, &mapped, frame, frame_len, report);
    } while (goes_on(host, &host->transmit.ring, report, &notify));
    report->notify = notify;
    return report->answer;
}

static uint32_t put_in_steps(struct host_side *host, const uint8_t *frame, size_t frame_len,
                             struct tollmeander_report *report)
{
    struct guest_memory mapped = mapping_memory(&host->mapping);
    bool notify = false;

    back_ring_look(&host->receive.ring);
    do {
        mapping_map(&host->mapping, &host->receive.ring);
        back_receive_put_copied(&host->receive, &mapped, frame, frame_len, report);
    } while (goes_on(host, &host->receive.ring, report, &notify));
    report->notify = notify;
    return report->answer;
}

uint32_t host_take(struct host_side *host, uint8_t *frame, size_t frame_len,
                   struct tollmeander_report *report)
{
    return host->in_steps
        ? take_in_steps(host, frame, frame_len, report)
        : back_transmit_take(&host->transmit, &host->memory, frame, frame_len, report);
}

uint32_t host_put(struct host_side *host, const uint8_t *frame, size_t frame_len,
                  struct tollmeander_report *report)
{
    return host->in_steps
        ? put_in_steps(host, frame, frame_len, report)
        : back_receive_put(&host->receive, &host->memory, frame, frame_len, report);
}

void host_open_transmit(struct host_side *host, struct ring_page *page, uint32_t counter,
                        uint64_t seed)
{
    if (!back_transmit_open(&host->transmit, page, counter, HOST_RECORDS))
        host->unexpected++;
    device_thread_open(&host->device, &host->events, seed);
}

void host_hand_over(struct host_side *host, const struct tollmeander_report *report,
                    int32_t status)
{
    device_thread_give(&host->device, (struct confirmation){
        .ticket = back_transmit_ticket(&host->transmit, report), .status = status
    });
}

/* Finishes one packet; in steps it is published later. */
static bool finish(struct host_side *host, const struct confirmation *packet)
{
    struct tollmeander_report report;
    uint32_t answer = (host->in_steps ? back_transmit_finish_copied : back_transmit_finish)(
        &host->transmit, packet->ticket, packet->status, &report);

    host->unexpected += answer != TOLLMEANDER_DONE;
    host->behind += report.slots == 0;
    return report.notify;
}

bool host_finish_confirmed(struct host_side *host)
{
    struct confirmation packets[TOLLMEANDER_HELD_MAX];
    uint32_t count = device_thread_collect(&host->device, packets);
    bool notify = false;

    for (uint32_t i = 0; i < count; i++)
        notify |= finish(host, &packets[i]);
    if (host->in_steps)
        notify |= back_ring_publish(&host->transmit.ring);
    return notify;
}

bool host_holds(const struct host_side *host)
{
    return host->transmit.replied != host->transmit.ring.consumed;
}

bool host_may_sleep(uint32_t answer)
{
    return back_ring_next(answer) == BACK_SLEEP;
}

bool host_is_done(struct host_side *host, uint32_t answer, bool may_sleep)
{
    bool waits = back_ring_next(answer) == BACK_WAIT_FOR_DEVICE;

    if (answer == TOLLMEANDER_DONE)
        return true;
    host->waits += waits;
    if (may_sleep || waits)
        channel_sleep(&host->events);
    else
        host->unexpected++;
    return false;
}

bool host_goes_on(const struct host_side *host)
{
    return !host->events.stalled && host->unexpected == 0;
}
