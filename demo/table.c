#include "table.h"

#include <inttypes.h>
#include <stdio.h>

#include "names.h"

void table_print_head(void)
{
    puts("                                                  by the device      slots");
    puts("guest > device    packets          bytes  spoiled  error  dropped  no reply  last answer"
         "  state");
    puts("--------------  ---------  -------------  -------  -----  -------  --------  -----------"
         "  ----------------------------------");
}

/* Whether a guest has sent all its packets and got back each frame that was handed over. */
static bool is_served(const struct guest *guest, const struct vif *vif)
{
    return guest_is_finished(guest) && guest_in_flight(guest) == 0 &&
           guest->receiver.frames == vif->device.frames;
}

/* The state of a guest that is served. */
static void print_sound(const struct vif *vif)
{
    if (vif->spoiled > 0)
        printf("sound; spoiled by cause %u (%s) at place %u\n", vif->last_spoiled.cause,
               tollmeander_cause_name(vif->last_spoiled.cause), vif->last_spoiled.place);
    else if (vif->finished.failed + vif->finished.dropped > 0)
        puts("sound; told what the device did not do");
    else
        puts("sound; all sent, all delivered back");
}

static void print_state(const struct guest *guest, const struct vif *vif)
{
    struct back_ticket open;

    if (vif->unexpected > 0)
        puts("DISCONNECTED: an answer came that must not");
    else if (vif->disconnected)
        puts("halted and disconnected; the others went on");
    else if (guest->sender.crashed)
        printf("crashed, %u of %u slots posted: device got none\n", guest->sender.place,
               guest->sender.packet.data_slots);
    else if (back_transmit_oldest(&vif->transmit, &open))
        puts("stopped: a packet is never confirmed; the others went on");
    else if (!is_served(guest, vif))
        puts("NOT FINISHED");
    else
        print_sound(vif);
}

void table_print_line(unsigned number, const struct guest *guest, const struct vif *vif)
{
    printf("%5u > %-6u  %9" PRIu64 "  %13" PRIu64 "  %7" PRIu64 "  %5" PRIu64 "  %7" PRIu64
           "  %8" PRIu32 "  %-11s  ", number, number, vif->device.frames, vif->device.bytes,
           vif->spoiled, vif->finished.failed, vif->finished.dropped, vif_open_slots(vif, guest),
           tollmeander_answer_name(vif->last_answer));
    print_state(guest, vif);
}

void table_print_summary(const struct guest *guests, const struct vif *vifs, unsigned count,
                         double seconds)
{
    uint64_t frames = 0, bytes = 0, wrong = 0, back = 0, wrong_back = 0, events = 0;
    uint64_t confirmed = 0, early = 0, replies = 0, wrong_replies = 0;

    for (unsigned i = 0; i < count; i++) {
        const struct finished *finished = &vifs[i].finished;

        frames += vifs[i].device.frames;
        bytes += vifs[i].device.bytes;
        wrong += vifs[i].device.wrong_frames;
        confirmed += finished->okay + finished->failed + finished->dropped + finished->late;
        early += finished->early;
        replies += guests[i].replies;
        wrong_replies += guest_wrong_replies(&guests[i]);
        back += guests[i].receiver.frames;
        wrong_back += guests[i].receiver.wrong_frames;
        events += vifs[i].events->to_guest + vifs[i].events->to_host;
    }
    printf("\n%" PRIu64 " frames handed over, %" PRIu64 " bytes, each compared byte for byte: %"
           PRIu64 " wrong\n", frames, bytes, wrong);
    printf("%" PRIu64 " packets confirmed by the devices, %" PRIu64
           " of them before an older one\n", confirmed, early);
    printf("%" PRIu64 " replies in the order of the slots, each with its id and status: %" PRIu64
           " wrong\n", replies, wrong_replies);
    printf("%" PRIu64 " frames came back to the guests, each compared byte for byte: %" PRIu64
           " wrong\n", back, wrong_back);
    printf("%" PRIu64 " notifications, %.1f seconds\n", events, seconds);
}
