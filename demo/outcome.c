#include "outcome.h"

#include <inttypes.h>
#include <stdio.h>

/* A packet that is handed over. */
static void expect_frame(struct outcome *outcome, const struct packet *packet, enum lapse lapse)
{
    outcome->frames++;
    outcome->bytes += packet->length;
    outcome->failed += lapse == LAPSE_FAIL;
    outcome->dropped += lapse == LAPSE_DROP;
    outcome->forgotten += lapse == LAPSE_FORGET;
}

/*
 * Of the packets from one on that is never confirmed as many are taken as there are records. The
 * guest posts on until its ring is full, perhaps in the middle of a packet.
 */
static void expect_stop(struct outcome *outcome, const struct traffic *traffic,
                        const struct lapses *lapses, uint64_t number)
{
    uint32_t posted = 0, held = 0;

    for (; number < traffic->packets && posted < TOLLMEANDER_RING_SLOTS; number++) {
        struct packet packet;

        traffic_packet(traffic, number, &packet);
        posted += packet.extras + packet.data_slots;
        if (held < VIF_RECORDS && posted <= TOLLMEANDER_RING_SLOTS) {
            expect_frame(outcome, &packet, lapse_of(lapses, number));
            held++;
        } else if (outcome->last_answer == TOLLMEANDER_EMPTY) {
            outcome->last_answer = posted <= TOLLMEANDER_RING_SLOTS ? TOLLMEANDER_NO_RECORD
                                                                    : TOLLMEANDER_WAITING;
        }
    }
    outcome->open_slots = posted < TOLLMEANDER_RING_SLOTS ? posted : TOLLMEANDER_RING_SLOTS;
}

/* A packet that is the guest's last. */
static void expect_end(struct outcome *outcome, enum fault fault)
{
    outcome->last_answer = fault == FAULT_CRASH ? TOLLMEANDER_WAITING : TOLLMEANDER_MISSHAPEN;
    outcome->open_slots = FAULTY_PLACE;
}

struct outcome outcome_expected(const struct traffic *traffic, const struct lapses *lapses)
{
    struct outcome outcome = { .last_answer = TOLLMEANDER_EMPTY };

    for (uint64_t number = 0; number < traffic->packets; number++) {
        enum lapse lapse = lapse_of(lapses, number);
        struct packet packet;

        traffic_packet(traffic, number, &packet);
        if (packet.fault == FAULT_CRASH || packet.fault == FAULT_MISSHAPEN) {
            expect_end(&outcome, packet.fault);
            break;
        }
        if (lapse == LAPSE_FORGET) {
            expect_stop(&outcome, traffic, lapses, number);
            break;
        }
        if (packet.fault == FAULT_UNGRANTED)
            outcome.spoiled++;
        else
            expect_frame(&outcome, &packet, lapse);
    }
    return outcome;
}

/* Whether two counts agree; says so if they do not. */
static bool agree(unsigned number, const char *what, uint64_t found, uint64_t expected)
{
    if (found != expected)
        fprintf(stderr, "guest %u: %s: %" PRIu64 ", must be %" PRIu64 "\n", number, what, found,
                expected);
    return found == expected;
}

static bool check_taken(unsigned number, const struct outcome *expected, const struct vif *vif)
{
    const struct tollmeander_report *spoiled = &vif->last_spoiled;
    bool right = true;

    right &= agree(number, "frames handed over", vif->device.frames, expected->frames);
    right &= agree(number, "bytes handed over", vif->device.bytes, expected->bytes);
    right &= agree(number, "wrong frames at the device", vif->device.wrong_frames, 0);
    right &= agree(number, "packets spoiled", vif->spoiled, expected->spoiled);
    right &= agree(number, "last answer", vif->last_answer, expected->last_answer);
    right &= agree(number, "disconnected", vif->disconnected,
                   expected->last_answer == TOLLMEANDER_MISSHAPEN);
    right &= agree(number, "unexpected answers to the host", vif->unexpected, 0);
    if (vif->spoiled > 0) {
        right &= agree(number, "cause", spoiled->cause, TOLLMEANDER_CAUSE_GRANT);
        right &= agree(number, "place", spoiled->place, FAULTY_PLACE);
        right &= agree(number, "slots", spoiled->slots, FAULTY_SLOTS);
    }
    return right;
}

/* Every packet that was handed over was finished once, but for the forgotten one and late ones. */
static bool check_finished(unsigned number, const struct outcome *expected,
                           const struct guest *guest, const struct vif *vif)
{
    const struct finished *finished = &vif->finished;
    uint64_t others = expected->failed + expected->dropped + expected->forgotten;
    bool right = true;

    right &= agree(number, "packets failed", finished->failed, expected->failed);
    right &= agree(number, "packets dropped", finished->dropped, expected->dropped);
    right &= agree(number, "packets okay or late", finished->okay + finished->late,
                   expected->frames - others);
    if (!vif->disconnected) {
        right &= agree(number, "late confirmations", finished->late, 0);
        right &= agree(number, "slots without a reply", vif_open_slots(vif, guest),
                       expected->open_slots);
    }
    return right;
}

/* The replies that the guest got. */
static bool check_replies(unsigned number, const struct outcome *expected,
                          const struct guest *guest, const struct vif *vif)
{
    bool right = true;

    right &= agree(number, "wrong replies to packets", guest_wrong_replies(guest), 0);
    right &= agree(number, "unexpected answers to posts", guest->poster.unexpected, 0);
    if (guest->posts)
        right &= agree(number, "packets replied to", guest->poster.replied, expected->frames);
    if (!guest->sender.crashed && !vif->disconnected)
        right &= agree(number, "slots whose replies were not read", guest_in_flight(guest),
                       expected->open_slots);
    return right;
}

/* The frames that came back to the guest. */
static bool check_frames(unsigned number, const struct outcome *expected,
                         const struct guest *guest, const struct vif *vif)
{
    bool right = true;

    right &= agree(number, "frames delivered or given up", vif->delivered + vif->given_up,
                   expected->frames);
    right &= agree(number, "wrong replies to buffers", guest->receiver.wrong_replies, 0);
    right &= agree(number, "wrong frames at the guest", guest->receiver.wrong_frames, 0);
    if (!guest->sender.crashed) {
        right &= agree(number, "frames at the guest", guest->receiver.frames, expected->frames);
        right &= agree(number, "frames given up", vif->given_up, 0);
    }
    return right;
}

bool outcome_check(unsigned number, const struct guest *guest, const struct vif *vif)
{
    struct outcome expected = outcome_expected(guest->traffic, guest->lapses);
    bool right = check_taken(number, &expected, vif);

    right &= check_finished(number, &expected, guest, vif);
    right &= check_replies(number, &expected, guest, vif);
    right &= check_frames(number, &expected, guest, vif);
    return right;
}
