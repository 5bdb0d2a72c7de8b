/*
 * The backend acts at every point of a driver's call. It must see nothing of a packet or all of it,
 * each reply is read once, and no order may leave one side asleep with work to do and no
 * notification under way.
 */
#include <stdbool.h>
#include <stdint.h>
#include <string.h>

#include "back_ring.h"
#include "check.h"
#include "interleaving.h"

#ifndef FRONT_RING_SOURCE
#define FRONT_RING_SOURCE "front_ring.c"
#endif
#include FRONT_RING_SOURCE

enum {
    PACKET_PAGES = 2,
    SLOTS = 3,              /* of the packet: a data slot, an extra, a data slot */
    LENGTH = TOLLMEANDER_PAGE_SIZE + 1
};

static struct front_ring ring;
static struct back_transmit back;
static struct tollmeander_report report;
static struct front_packet packet;
static uint8_t frame[LENGTH], taken_frame[LENGTH];
static bool backend_sleeps, backend_notified;
static uint32_t taken;

/* What a case may come to; each must have come about. */
enum outcome {
    TAKEN_EARLY, BACKEND_SLEPT, DRIVER_SLEPT, TOLD, NOT_TOLD, TOO_MANY, WRONG_REPLY, OUTCOMES
};

static uint32_t reached[OUTCOMES];

/* The backend. */

/*
 * Takes what is there, which is nothing or the packet; if nothing, it has asked for an event. The
 * packet is finished at once.
 */
static void take(void)
{
    struct tollmeander_report taking, finishing;
    uint32_t answer = back_transmit_take(&back, &granted, taken_frame, sizeof taken_frame,
                                         &taking);

    backend_sleeps = answer == TOLLMEANDER_EMPTY;
    if (backend_sleeps)
        return;
    taken++;
    CHECK(answer == TOLLMEANDER_DONE && taking.slots == SLOTS && taking.total == LENGTH);
    CHECK(taking.gso_size == 1460 && taking.gso_type == 1);
    CHECK(memcmp(taken_frame, frame, LENGTH) == 0);
    CHECK(back_transmit_finish(&back, back_transmit_ticket(&back, &taking),
                               TOLLMEANDER_REPLY_OKAY, &finishing) == TOLLMEANDER_DONE);
    backend_notified = finishing.notify;
}

/* The two halves of going to sleep. */
static void ask_for_event(void)
{
    set_word(RING_REQ_EVENT, COUNTER + 1);
}

static void see_whether_to_sleep(void)
{
    backend_sleeps = word(RING_REQ_PROD) == COUNTER;
}

/* The two halves of replying. */
static void publish_replies(void)
{
    for (uint32_t n = COUNTER; n != COUNTER + SLOTS; n++)
        set_word(ring_slot(TRANSMIT_SLOT_WORDS, n),
                 n == 0 ? (uint32_t)TOLLMEANDER_REPLY_NULL << 16 : n & 0xFFFF);
    set_word(RING_RSP_PROD, COUNTER + SLOTS);
}

static void see_whether_to_notify(void)
{
    uint32_t rsp_prod = word(RING_RSP_PROD);

    backend_notified = rsp_prod - word(RING_RSP_EVENT) < SLOTS;
}

/* Makes all that the driver may read what it must refuse. */
static void write_garbage(void)
{
    for (uint32_t n = COUNTER; n != COUNTER + SLOTS; n++)
        set_word(ring_slot(TRANSMIT_SLOT_WORDS, n), 0x7F7F7F7F);
    set_word(RING_RSP_PROD, 0x7F7F7F7F);
}

/* The driver. */

static uint32_t post(void)
{
    const uint32_t references[PACKET_PAGES] = { GREF + 1, GREF };
    const struct front_gso gso = { 1, 1460, 1 };

    return front_ring_post(&ring, &granted, references, PACKET_PAGES, frame, LENGTH, gso, &report);
}

static enum front_collected collected;
static bool driver_sleeps;

static void call_post(void)
{
    CHECK(post() == TOLLMEANDER_DONE);
}

static void call_collect(void)
{
    collected = front_ring_collect(&ring, &packet);
}

static void call_await(void)
{
    driver_sleeps = front_ring_await(&ring, 1);
}

/* A fresh queue; old events are past. */
static void set_up(void)
{
    front_ring_open(&ring, &page, COUNTER);
    drain();
    set_word(RING_REQ_EVENT, COUNTER);
    set_word(RING_RSP_EVENT, COUNTER);
    back_ring_close(&back.ring);
    CHECK(back_transmit_open(&back, &page, COUNTER, 1));
    open_pages();
    for (uint32_t i = 0; i < LENGTH; i++)
        frame[i] = (uint8_t)(i * 7 + i / 256);
    memset(&packet, 0, sizeof packet);
    taken = 0;
    backend_sleeps = backend_notified = driver_sleeps = false;
}

/* The same, with the packet posted. */
static void set_up_posted(void)
{
    set_up();
    CHECK(post() == TOLLMEANDER_DONE);
    drain();
}

static bool is_told(void)
{
    return packet.first == COUNTER && packet.slots == SLOTS && packet.pages == PACKET_PAGES &&
           packet.status == TOLLMEANDER_REPLY_OKAY;
}

/* The backend takes while the driver posts; in the end it has taken the packet, once. */
static void check_taking(void)
{
    set_up();
    run(call_post, take, take);
    CHECK(taken == 1 || !backend_sleeps || report.notify);
    CHECK(loads[RING_REQ_PROD] == 0 && loads[RING_REQ_EVENT] == 1);
    reached[TAKEN_EARLY] += taken;
    take();
    CHECK(taken == 1);
    run(call_collect, do_nothing, do_nothing);
    CHECK(collected == FRONT_PACKET && is_told());
}

/* The backend goes to sleep while the driver posts. */
static void check_sleeping(void)
{
    set_up();
    run(call_post, ask_for_event, see_whether_to_sleep);
    CHECK(!backend_sleeps || report.notify);
    reached[BACKEND_SLEPT] += backend_sleeps;
}

/* The loads of the packet's replies, each of which may be at most one. */
static uint32_t reply_loads(void)
{
    uint32_t count = 0;

    for (uint32_t n = COUNTER; n != COUNTER + SLOTS; n++) {
        CHECK(loads[ring_slot(TRANSMIT_SLOT_WORDS, n)] <= 1);
        count += loads[ring_slot(TRANSMIT_SLOT_WORDS, n)];
    }
    return count;
}

static enum outcome outcome_of_collecting(void)
{
    if (collected == FRONT_PACKET)
        return TOLD;
    if (collected == FRONT_NONE)
        return NOT_TOLD;
    return ring.fault == FRONT_TOO_MANY_REPLIES ? TOO_MANY : WRONG_REPLY;
}

/* The backend replies while the driver collects, and then spoils what it wrote. */
static void check_collecting(void)
{
    enum outcome outcome;

    set_up_posted();
    run(call_collect, publish_replies, write_garbage);
    outcome = outcome_of_collecting();
    reached[outcome]++;
    CHECK(loads[RING_RSP_PROD] == 1);
    if (outcome == TOLD)
        CHECK(is_told() && reply_loads() == SLOTS);
    else if (outcome == WRONG_REPLY)
        CHECK(packet.slots == 0 && reply_loads() > 0);
    else
        CHECK(packet.slots == 0 && reply_loads() == 0);
}

/* The same without spoiling: the replies have all come or none has. */
static void check_replies(void)
{
    set_up_posted();
    run(call_collect, publish_replies, do_nothing);
    CHECK(collected == FRONT_NONE || (collected == FRONT_PACKET && is_told()));
    if (collected == FRONT_NONE)
        run(call_collect, do_nothing, do_nothing);
    CHECK(collected == FRONT_PACKET && is_told());
}

/* The backend replies while the driver goes to sleep. */
static void check_awaiting(void)
{
    set_up_posted();
    run(call_await, publish_replies, see_whether_to_notify);
    CHECK(!driver_sleeps || backend_notified);
    reached[DRIVER_SLEPT] += driver_sleeps;
    run(call_collect, do_nothing, do_nothing);
    CHECK(collected == FRONT_PACKET && is_told());
}

static void check_all(void)
{
    check_taking();
    check_sleeping();
    check_collecting();
    check_replies();
    check_awaiting();
}

int main(void)
{
    at_all_points(check_all);
    for (uint32_t outcome = 0; outcome < OUTCOMES; outcome++)
        CHECK(reached[outcome] > 0);
    return check_result("front interleave");
}
