/*
 * The guest acts at every point of a host's calls, made at once or in steps. No order may leave one
 * side asleep with work to do and no notification under way, with packets held or without; and no
 * reply may be seen while the host has the page that it gives back still mapped.
 */
#include <stdbool.h>
#include <stdint.h>
#include <string.h>

#include "check.h"
#include "interleaving.h"
#include "mapping.h"
#include "slot_bits.h"

#ifndef BACK_RING_SOURCE
#define BACK_RING_SOURCE "back_ring.c"
#endif
#include BACK_RING_SOURCE

enum { SLOTS = 2, PART = 100, PACKETS = 2 };

static struct back_transmit transmit;
static struct back_receive receive;
static struct back_ring *ring;      /* of one of the two */
static struct mapping mapping;
static struct tollmeander_report report;
static uint8_t frame[SLOTS * TOLLMEANDER_PAGE_SIZE];
static bool is_transmit, in_steps;
static bool host_notified;          /* the guest, of replies */
static uint32_t published;          /* the guest's req_prod */
static uint32_t awaited;            /* replies that the guest sleeps for */
static bool guest_sleeps, guest_notified;

static uint32_t slot_id(uint32_t n)
{
    return (n + 1000) & 0xFFFF;
}

/* Writes the next slot: of packets of two parts, or a request for a page. */
static void write_slot(void)
{
    uint32_t n = published;
    uint32_t index = n - COUNTER;
    uint32_t first = ring_slot(ring->slot_words, n);
    bool is_first = index % SLOTS == 0;
    uint32_t flags = is_first ? MORE_DATA : 0;
    uint32_t size = is_first ? SLOTS * PART : PART;

    set_word(first, is_transmit ? GREF + index : slot_id(n));
    set_word(first + 1, is_transmit ? flags << 16 : GREF + index);
    if (is_transmit)
        set_word(first + 2, slot_id(n) | size << 16);
}

static void publish_slot(void)
{
    write_slot();
    set_word(RING_REQ_PROD, ++published);
}

static void publish_packet(void)
{
    for (uint32_t i = 0; i < SLOTS; i++) {
        write_slot();
        published++;
    }
    set_word(RING_REQ_PROD, published);
}

/* After a slot or a packet: whether the host asked for an event of one of these slots. */
static void see_whether_to_notify_of(uint32_t slots)
{
    guest_notified = published - word(RING_REQ_EVENT) < slots;
}

static void see_whether_to_notify(void)
{
    see_whether_to_notify_of(1);
}

static void see_whether_to_notify_of_packet(void)
{
    see_whether_to_notify_of(SLOTS);
}

static void ask_for_event(void)
{
    set_word(RING_RSP_EVENT, COUNTER + awaited);
}

/* Sleeps unless the replies have come; what has come must stand there, and give the pages back. */
static void see_whether_to_sleep(void)
{
    uint32_t sent = word(RING_RSP_PROD) - COUNTER;

    guest_sleeps = sent < awaited;
    for (uint32_t n = COUNTER; n != COUNTER + sent; n++) {
        uint32_t first = ring_slot(ring->slot_words, n);

        CHECK(!mapping_has(&mapping, GREF + n - COUNTER));
        CHECK(word(first) == slot_id(n));
        CHECK(is_transmit || word(first + 1) >> 16 != 0);
    }
}

/* A fresh queue on which the guest has posted some slots; old events are past. */
static void set_up(uint32_t posted, uint32_t records)
{
    memset(&page, 0, sizeof page);
    for (uint32_t at = RING_REQ_PROD; at <= RING_RSP_EVENT; at++)
        set_word(at, COUNTER);
    open_pages();
    ring = is_transmit ? &transmit.ring : &receive.ring;
    back_ring_close(ring);
    CHECK(is_transmit ? back_transmit_open(&transmit, &page, COUNTER, records)
                      : back_receive_open(&receive, &page, COUNTER));
    mapping_open(&mapping, &granted, COUNTER);
    published = COUNTER;
    awaited = 1;
    host_notified = guest_sleeps = guest_notified = false;
    for (uint32_t i = 0; i < posted; i++)
        publish_slot();
}

static void call_at_once(void)
{
    if (is_transmit)
        back_transmit_take(&transmit, &granted, frame, sizeof frame, &report);
    else
        back_receive_put(&receive, &granted, frame, TOLLMEANDER_PAGE_SIZE + 1, &report);
    host_notified |= report.notify;
}

static void call_copied(void)
{
    struct guest_memory mapped = mapping_memory(&mapping);

    if (is_transmit)
        back_transmit_take_copied(&transmit, &mapped, frame, sizeof frame, &report);
    else
        back_receive_put_copied(&receive, &mapped, frame, TOLLMEANDER_PAGE_SIZE + 1, &report);
}

/* Maps on demand; unmaps before the replies are out, or with UNMAP_LATE after, which must fail. */
static void call_in_steps(void)
{
    back_ring_look(ring);
    do {
        mapping_map(&mapping, ring);
        call_copied();
#ifndef UNMAP_LATE
        mapping_unmap(&mapping, ring, report.slots);
#endif
        host_notified |= back_ring_publish(ring);
#ifdef UNMAP_LATE
        if (!is_transmit)
            mapping_unmap(&mapping, ring, report.slots);
#endif
    } while (back_ring_next(report.answer) == BACK_SLEEP && !back_ring_may_sleep(ring));
}

/* A take or a put; what the host does next. */
static enum back_next call(void)
{
    if (in_steps)
        call_in_steps();
    else
        call_at_once();
    return back_ring_next(report.answer);
}

/* The device has confirmed the packet whose first slot is n. */
static void finish(uint32_t n)
{
    const struct back_ticket ticket = { transmit.connection, n };
    struct tollmeander_report finished;

    if (in_steps) {
        back_transmit_finish_copied(&transmit, ticket, TOLLMEANDER_REPLY_OKAY, &finished);
        host_notified |= back_ring_publish(ring);
#ifdef UNMAP_LATE
        mapping_unmap(&mapping, ring, finished.slots);
#endif
    } else {
        back_transmit_finish(&transmit, ticket, TOLLMEANDER_REPLY_OKAY, &finished);
        host_notified |= finished.notify;
    }
    CHECK(finished.answer == TOLLMEANDER_DONE);
}

/* One call, and at once the device's word on what it took. */
static void serve_one(void)
{
    call();
    if (is_transmit && report.answer == TOLLMEANDER_DONE)
        finish(report.ticket);
}

static void finish_first(void)
{
    finish(COUNTER);
}

/* The host sleeps, or takes a packet; then the device confirms the one that was held before. */
static void serve_and_finish_first(void)
{
    call();
    finish_first();
}

/*
 * The host's loop, until it sleeps for the guest, with a device that confirms a packet when the
 * host waits for it, and all others when it sleeps.
 */
static void serve_until_asleep(void)
{
    struct back_ticket oldest;
    enum back_next next;

    while ((next = call()) != BACK_SLEEP && checks_failed == 0) {
        CHECK(next == BACK_GO_ON || next == BACK_WAIT_FOR_DEVICE);
        if (next == BACK_WAIT_FOR_DEVICE && back_transmit_oldest(&transmit, &oldest))
            finish(oldest.slot);
    }
    while (back_transmit_oldest(&transmit, &oldest) && checks_failed == 0)
        finish(oldest.slot);
}

/* The guest goes to sleep while the host replies. */
static void check_replies(void)
{
    set_up(SLOTS, 1);
    run(serve_one, ask_for_event, see_whether_to_sleep);
    CHECK(report.answer == TOLLMEANDER_DONE);
    CHECK(!guest_sleeps || host_notified);
}

/* The guest posts its last slot while the host goes to sleep. */
static void check_requests(void)
{
    set_up(SLOTS - 1, 1);
    run(serve_one, publish_slot, see_whether_to_notify);
    CHECK(report.answer == TOLLMEANDER_DONE || back_ring_next(report.answer) == BACK_SLEEP);
    CHECK(report.answer == TOLLMEANDER_DONE || guest_notified);
}

/* Both packets leave as the first is finished, while the guest goes to sleep for some replies. */
static void check_finish(void)
{
    for (uint32_t replies = 1; replies <= PACKETS * SLOTS; replies++) {
        set_up(PACKETS * SLOTS, PACKETS);
        awaited = replies;
        CHECK(call() == BACK_GO_ON && call() == BACK_GO_ON);
        finish(COUNTER + SLOTS);
        CHECK(word(RING_RSP_PROD) == COUNTER && !host_notified);
        run(finish_first, ask_for_event, see_whether_to_sleep);
        CHECK(word(RING_RSP_PROD) == COUNTER + PACKETS * SLOTS);
        CHECK(!guest_sleeps || host_notified);
    }
}

/* With a packet held, the guest posts the next while the host goes to sleep. */
static void check_requests_while_held(void)
{
    set_up(SLOTS, PACKETS);
    CHECK(call() == BACK_GO_ON);
    run(serve_and_finish_first, publish_packet, see_whether_to_notify_of_packet);
    CHECK(report.answer == TOLLMEANDER_DONE || guest_notified);
    CHECK(word(RING_RSP_PROD) == COUNTER + SLOTS);
}

/* With one record, the guest posts the next packet before, while or after the host waits for it. */
static void check_one_record(void)
{
    set_up(SLOTS, 1);
    run(serve_until_asleep, publish_packet, see_whether_to_notify_of_packet);
    CHECK(ring->consumed == published || guest_notified);
    CHECK(word(RING_RSP_PROD) == ring->consumed);
}

/* With one record, the guest goes to sleep until all replies have come. */
static void check_replies_of_one_record(void)
{
    set_up(PACKETS * SLOTS, 1);
    awaited = PACKETS * SLOTS;
    run(serve_until_asleep, ask_for_event, see_whether_to_sleep);
    CHECK(word(RING_RSP_PROD) == published);
    CHECK(!guest_sleeps || host_notified);
}

static void check_both_rings(void)
{
    for (int i = 0; i < 4; i++) {
        is_transmit = i % 2 == 0;
        in_steps = i / 2 == 0;
        check_replies();
        check_requests();
        if (is_transmit) {
            check_finish();
            check_requests_while_held();
            check_one_record();
            check_replies_of_one_record();
        }
    }
}

int main(void)
{
    at_all_points(check_both_rings);
    return check_result("interleave");
}
