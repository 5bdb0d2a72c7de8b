#include "vif.h"

#include <string.h>

/* No guest may hold the host for longer than this many packets. */
enum { PACKETS_A_TURN = 16 };

void vif_open(struct vif *vif, struct guest *guest, struct events *events, uint32_t counter)
{
    memset(vif, 0, sizeof *vif);
    back_transmit_open(&vif->transmit, &guest->transmit_page, counter, VIF_RECORDS);
    back_receive_open(&vif->receive, &guest->receive_page, counter);
    vif->memory = guest_pages_memory(&guest->pages);
    device_open(&vif->device, guest->traffic);
    confirmer_open(&vif->confirmer, guest->lapses, guest->traffic->seed);
    vif->events = events;
    vif->awake = true;
}

/* Disconnects the guest. Nothing more is taken, and tickets that are out go nowhere. */
static void disconnect(struct vif *vif)
{
    back_ring_close(&vif->transmit.ring);
    back_ring_close(&vif->receive.ring);
    vif->disconnected = true;
}

/*
 * Does what an answer asks of the host; whether there is more to do at once. This host lends a
 * frame buffer that always has room and frames of a good length, so it has nothing to mend: it
 * disconnects the guest rather than call again for ever.
 */
static bool follow(struct vif *vif, uint32_t answer)
{
    switch (back_ring_next(answer)) {
    case BACK_GO_ON:
        return true;
    case BACK_SLEEP:
        return false;
    case BACK_WAIT_FOR_DEVICE:
        vif->waits_for_device = true;
        return false;
    case BACK_DISCONNECT:
    case BACK_MEND:
        break;
    }
    disconnect(vif);
    return false;
}

/* Hands a packet to the device. Its frame goes back to the guest too. */
static void hand_over(struct vif *vif, const struct tollmeander_report *report)
{
    struct back_ticket ticket = back_transmit_ticket(&vif->transmit, report);

    confirmer_give(&vif->confirmer, ticket, vif->device.next);
    device_accept(&vif->device, vif->frame, report);
    vif->frame_len = report->total;
}

/* Takes a packet; false if there is nothing to do until guest or device have done something. */
static bool take(struct vif *vif)
{
    struct tollmeander_report report;

    vif->last_answer = back_transmit_take(&vif->transmit, &vif->memory, vif->frame,
                                          sizeof vif->frame, &report);
    if (report.notify)
        events_notify_guest(vif->events);
    if (report.answer == TOLLMEANDER_DONE) {
        hand_over(vif, &report);
    } else if (report.answer == TOLLMEANDER_SPOILED) {
        vif->spoiled++;
        vif->last_spoiled = report;
    } else if (back_ring_next(report.answer) == BACK_MEND) {
        vif->unexpected++;
    }
    return follow(vif, report.answer);
}

static void count_finished(struct finished *finished, int32_t status, bool early)
{
    finished->okay += status == TOLLMEANDER_REPLY_OKAY;
    finished->failed += status == TOLLMEANDER_REPLY_ERROR;
    finished->dropped += status == TOLLMEANDER_REPLY_DROPPED;
    finished->early += early;
}

/* Finishes a packet that the device has confirmed. */
static void finish(struct vif *vif, const struct confirmation *confirmed)
{
    struct tollmeander_report report;
    uint32_t answer = back_transmit_finish(&vif->transmit, confirmed->ticket, confirmed->status,
                                           &report);

    if (report.notify)
        events_notify_guest(vif->events);
    if (answer == TOLLMEANDER_DONE)
        count_finished(&vif->finished, confirmed->status, report.slots == 0);
    else if (answer == TOLLMEANDER_BAD_TICKET && vif->disconnected)
        vif->finished.late++;
    else
        vif->unexpected++;
    if (report.slots > 0 && vif->waits_for_device) {
        vif->waits_for_device = false;
        vif->awake = true;
    }
}

/*
 * Finishes what the device has confirmed since the last turn; false if it has nothing to confirm.
 *
 * NOTE: This host waits for its device for ever, to show what becomes of the guest. A host that is
 *       to last finishes each packet within a time limit: see back_transmit_oldest, and
 *       xen/queue.c.
 */
static bool hear_device(struct vif *vif)
{
    bool heard = vif->confirmer.count > 0;

    for (uint32_t left = confirmer_turn(&vif->confirmer); left > 0; left--) {
        struct confirmation confirmed = confirmer_confirm(&vif->confirmer);

        finish(vif, &confirmed);
    }
    return heard;
}

/* Delivers the frame that goes back; false if there is nothing to do until the guest posts more. */
static bool deliver(struct vif *vif)
{
    struct tollmeander_report report;
    uint32_t answer = back_receive_put(&vif->receive, &vif->memory, vif->frame, vif->frame_len,
                                       &report);

    if (report.notify)
        events_notify_guest(vif->events);
    if (answer == TOLLMEANDER_DONE)
        vif->delivered++;
    else if (back_ring_next(answer) != BACK_SLEEP)
        vif->unexpected++;
    if (back_ring_next(answer) != BACK_SLEEP)
        vif->frame_len = 0;
    return follow(vif, answer);
}

bool vif_turn(struct vif *vif)
{
    bool heard = hear_device(vif);

    if (vif->disconnected || !(vif->awake || vif->events->host_pending))
        return heard;
    vif->events->host_pending = false;
    vif->awake = true;
    for (uint32_t taken = 0; vif->awake && taken < PACKETS_A_TURN; taken++)
        vif->awake = (vif->frame_len == 0 || deliver(vif)) && take(vif);
    return true;
}

bool vif_give_up_frame(struct vif *vif)
{
    if (vif->disconnected || vif->frame_len == 0)
        return false;
    vif->frame_len = 0;
    vif->given_up++;
    vif->awake = true;
    return true;
}

uint32_t vif_open_slots(const struct vif *vif, const struct guest *guest)
{
    return guest_posted(guest) - vif->transmit.replied;
}
