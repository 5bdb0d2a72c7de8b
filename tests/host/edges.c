/*
 * back_ring.c at its edges, on one thread: what it writes to the guest's page and what it leaves
 * alone, the wrap, packets that are held and the order in which they leave, a req_prod that
 * overflows or goes back, halting, slots that are rewritten; then calls in random order against a
 * model. Its steps, and whose a ticket is, are in steps.c.
 */
#include <stdbool.h>
#include <stdint.h>
#include <string.h>

#include "back_ring.h"
#include "back_scene.h"
#include "check.h"
#include "random_calls.h"
#include "slot_bits.h"

enum { FRAME_SIZE = 60, SLOTS = TOLLMEANDER_RING_SLOTS };

static struct back_transmit transmit;
static struct back_receive receive;
static struct tollmeander_report report;
static uint8_t frame[TOLLMEANDER_FRAME_MAX];

static void open_page(uint32_t counter)
{
    litter_page();
    set_word(RING_REQ_PROD, counter);
    set_word(RING_RSP_PROD, counter);
    open_pages();
}

/* The guest is gone and comes again. */
static void reopen(void)
{
    back_ring_close(&transmit.ring);
    back_ring_close(&receive.ring);
}

static void open_transmit_with(uint32_t counter, uint32_t records)
{
    open_page(counter);
    reopen();
    CHECK(back_transmit_open(&transmit, &page, counter, records));
}

static void open_transmit(uint32_t counter)
{
    open_transmit_with(counter, TOLLMEANDER_HELD_MAX);
}

static void open_receive(uint32_t counter)
{
    open_page(counter);
    reopen();
    CHECK(back_receive_open(&receive, &page, counter));
}

static void write_data(uint32_t n, uint32_t gref, uint32_t flags, uint32_t id, uint32_t size)
{
    uint32_t first = ring_slot(TRANSMIT_SLOT_WORDS, n);

    set_word(first, gref);
    set_word(first + 1, flags << 16);
    set_word(first + 2, id | size << 16);
}

/* Posts packets of one slot each; the id of slot n is n. */
static void post_packets(uint32_t first, uint32_t count)
{
    for (uint32_t n = first; n != first + count; n++)
        write_data(n, GREF, 0, n & 0xFFFF, FRAME_SIZE);
    set_word(RING_REQ_PROD, first + count);
}

/* Whether the guest's page has a reply in slot n. */
static bool has_reply(uint32_t n, uint32_t id, int status)
{
    return word(ring_slot(TRANSMIT_SLOT_WORDS, n)) == (id | (uint32_t)status << 16);
}

static void write_request(uint32_t n, uint32_t id, uint32_t gref)
{
    uint32_t first = ring_slot(RECEIVE_SLOT_WORDS, n);

    set_word(first, id | 0xFFFF0000);
    set_word(first + 1, gref);
}

static uint32_t take(void)
{
    keep_page();
    return back_transmit_take(&transmit, &granted, frame, sizeof frame, &report);
}

/* Finishes the packet whose first slot is n. */
static uint32_t finish(uint32_t n, int32_t status)
{
    const struct back_ticket ticket = { transmit.connection, n };

    keep_page();
    return back_transmit_finish(&transmit, ticket, status, &report);
}

static void take_packets(uint32_t count)
{
    for (uint32_t i = 0; i < count; i++)
        CHECK(take() == TOLLMEANDER_DONE && changed() == 0);
}

static uint32_t put(size_t length)
{
    keep_page();
    return back_receive_put(&receive, &granted, frame, length, &report);
}

/* A take writes nothing; a reply to a data slot is four octets, and rsp_prod moves. */
static void transmit_writes_little(void)
{
    open_transmit(250);
    for (uint32_t n = 250; n < 253; n++)
        write_data(n, GREF + n - 250, n < 252 ? MORE_DATA : 0, n, n == 250 ? 3 * 20 : 20);
    set_word(RING_REQ_PROD, 253);
    CHECK(take() == TOLLMEANDER_DONE);
    CHECK(report.slots == 3 && report.total == 60 && report.ticket == 250 && report.notify == 0);
    CHECK(changed() == 0);
    CHECK(take() == TOLLMEANDER_EMPTY);
    CHECK(changed() == 1);
    CHECK(word(RING_REQ_EVENT) == 254);
    CHECK(finish(250, TOLLMEANDER_REPLY_OKAY) == TOLLMEANDER_DONE);
    CHECK(report.slots == 3 && changed() == 4);
    CHECK(word(RING_RSP_PROD) == 253);
    for (uint32_t n = 250; n < 253; n++)
        CHECK(has_reply(n, n, TOLLMEANDER_REPLY_OKAY));
}

/* A reply to a request is eight octets. */
static void receive_writes_little(void)
{
    open_receive(250);
    for (uint32_t n = 250; n < 253; n++)
        write_request(n, n, GREF + n - 250);
    set_word(RING_REQ_PROD, 252);
    CHECK(put(2 * TOLLMEANDER_PAGE_SIZE + 1) == TOLLMEANDER_NO_BUFFERS);
    CHECK(changed() == 1);
    CHECK(word(RING_REQ_EVENT) == 253);
    set_word(RING_REQ_PROD, 253);
    CHECK(put(2 * TOLLMEANDER_PAGE_SIZE + 1) == TOLLMEANDER_DONE);
    CHECK(changed() == 7);
    CHECK(word(RING_RSP_PROD) == 253);
    for (uint32_t n = 250; n < 253; n++) {
        uint32_t first = ring_slot(RECEIVE_SLOT_WORDS, n);

        CHECK(word(first) == n);
        CHECK(word(first + 1) == (n < 252 ? 4096u << 16 | MORE_DATA : 1u << 16));
    }
}

/* A spoiled packet with nothing held is replied to; answers without a trace leave the page. */
static void refusals_write_little(void)
{
    open_transmit(7);
    write_data(7, 0, 0, 33, FRAME_SIZE);
    set_word(RING_REQ_PROD, 8);
    CHECK(take() == TOLLMEANDER_SPOILED);
    CHECK(report.cause == TOLLMEANDER_CAUSE_GRANT && report.slots == 1);
    CHECK(changed() == 2);
    CHECK(has_reply(7, 33, TOLLMEANDER_REPLY_ERROR));
    open_receive(7);
    CHECK(put(TOLLMEANDER_FRAME_MIN - 1) == TOLLMEANDER_BAD_LENGTH);
    CHECK(changed() == 0);
}

/* A spoiled packet waits for the one before it, and needs no finishing. */
static void spoiled_waits_its_turn(void)
{
    open_transmit(7);
    set_word(RING_RSP_EVENT, 9);
    write_data(7, GREF, 0, 33, FRAME_SIZE);
    write_data(8, 0, 0, 34, FRAME_SIZE);
    set_word(RING_REQ_PROD, 9);
    CHECK(take() == TOLLMEANDER_DONE);
    CHECK(take() == TOLLMEANDER_SPOILED);
    CHECK(report.slots == 1 && report.notify == 0 && changed() == 0);
    CHECK(finish(8, TOLLMEANDER_REPLY_OKAY) == TOLLMEANDER_BAD_TICKET);
    CHECK(finish(7, TOLLMEANDER_REPLY_OKAY) == TOLLMEANDER_DONE);
    CHECK(report.slots == 2 && report.notify == 1 && changed() == 3);
    CHECK(has_reply(7, 33, TOLLMEANDER_REPLY_OKAY) && has_reply(8, 34, TOLLMEANDER_REPLY_ERROR));
}

/* Twelve packets across the wrap of the counter, each finished before the next is taken. */
static void goes_through_the_wrap(void)
{
    uint32_t counter = 4294967290u;

    open_transmit(counter);
    post_packets(counter, 12);
    for (uint32_t n = counter; n != 6; n++) {
        CHECK(take() == TOLLMEANDER_DONE && report.ticket == n);
        CHECK(finish(n, TOLLMEANDER_REPLY_OKAY) == TOLLMEANDER_DONE);
        CHECK(word(RING_RSP_PROD) == n + 1);
        CHECK(has_reply(n, n & 0xFFFF, TOLLMEANDER_REPLY_OKAY));
    }
    CHECK(take() == TOLLMEANDER_EMPTY);
    CHECK(word(RING_REQ_EVENT) == 7);
}

/* Packets finished from the last to the first, across the wrap, leave when the first is. */
static void replies_leave_in_order(void)
{
    uint32_t counter = UINT32_MAX - 2;

    open_transmit(counter);
    post_packets(counter, 6);
    take_packets(6);
    for (uint32_t n = counter + 5; n != counter; n--) {
        CHECK(finish(n, TOLLMEANDER_REPLY_DROPPED) == TOLLMEANDER_DONE);
        CHECK(report.slots == 0 && report.notify == 0 && changed() == 0);
    }
    CHECK(finish(counter, TOLLMEANDER_REPLY_ERROR) == TOLLMEANDER_DONE);
    CHECK(report.slots == 6 && changed() == 7 && word(RING_RSP_PROD) == counter + 6);
    CHECK(has_reply(counter, counter & 0xFFFF, TOLLMEANDER_REPLY_ERROR));
    for (uint32_t n = counter + 1; n != counter + 6; n++)
        CHECK(has_reply(n, n & 0xFFFF, TOLLMEANDER_REPLY_DROPPED));
}

/* The data slots of a packet get its status, its extra id 0 and none. */
static void statuses_reach_the_guest(void)
{
    for (int status = TOLLMEANDER_REPLY_DROPPED; status <= TOLLMEANDER_REPLY_OKAY; status++) {
        open_transmit(0);
        write_data(0, GREF, MORE_DATA | EXTRA_FOLLOWS, 70, FRAME_SIZE);
        set_word(ring_slot(TRANSMIT_SLOT_WORDS, 1), EXTRA_TYPE_GSO | 1u << 16);
        set_word(ring_slot(TRANSMIT_SLOT_WORDS, 1) + 1, 1);
        write_data(2, GREF, 0, 72, 1);
        set_word(RING_REQ_PROD, 3);
        CHECK(take() == TOLLMEANDER_DONE && report.slots == 3);
        CHECK(finish(0, status) == TOLLMEANDER_DONE && changed() == 4);
        CHECK(has_reply(0, 70, status) && has_reply(2, 72, status));
        CHECK(has_reply(1, 0, TOLLMEANDER_REPLY_NULL));
    }
}

/*
 * The notification goes by the guest's rsp_event of now, and by all replies that leave with a
 * finish: 251 to 254 for slots 250 to 252 of a packet and 253 of one that was finished before it.
 */
static void notifies_by_the_page(void)
{
    for (uint32_t rsp_event = 249; rsp_event < 257; rsp_event++) {
        open_transmit(250);
        for (uint32_t n = 250; n < 253; n++)
            write_data(n, GREF, n < 252 ? MORE_DATA : 0, n, n == 250 ? FRAME_SIZE : 0);
        post_packets(253, 1);
        CHECK(take() == TOLLMEANDER_DONE && take() == TOLLMEANDER_DONE);
        CHECK(finish(253, TOLLMEANDER_REPLY_OKAY) == TOLLMEANDER_DONE && report.notify == 0);
        set_word(RING_RSP_EVENT, rsp_event);
        CHECK(finish(250, TOLLMEANDER_REPLY_OKAY) == TOLLMEANDER_DONE);
        CHECK(report.notify == (rsp_event >= 251 && rsp_event <= 254));
    }
}

/* With every record in use the host waits for the device; the guest is asked for nothing. */
static void no_record_waits_for_the_device(void)
{
    open_transmit_with(3, 2);
    post_packets(3, 3);
    take_packets(2);
    CHECK(take() == TOLLMEANDER_NO_RECORD);
    CHECK(changed() == 0);
    CHECK(back_ring_next(report.answer) == BACK_WAIT_FOR_DEVICE);
    CHECK(finish(4, TOLLMEANDER_REPLY_OKAY) == TOLLMEANDER_DONE);
    CHECK(take() == TOLLMEANDER_NO_RECORD);
    CHECK(finish(3, TOLLMEANDER_REPLY_OKAY) == TOLLMEANDER_DONE && report.slots == 2);
    take_packets(1);
    CHECK(take() == TOLLMEANDER_EMPTY);
}

/* A full ring is taken; one slot more halts, and then nothing is read or written any more. */
static void overflow_halts(void)
{
    open_transmit(3);
    post_packets(3, SLOTS);
    CHECK(take() == TOLLMEANDER_DONE);
    CHECK(finish(3, TOLLMEANDER_REPLY_OKAY) == TOLLMEANDER_DONE);
    set_word(RING_REQ_PROD, 4 + 257);
    CHECK(take() == TOLLMEANDER_OVERFLOW);
    CHECK(changed() == 0);
    CHECK(transmit.ring.halted == 1 && transmit.ring.consumed == 4);
    set_word(RING_REQ_PROD, 4 + 2);
    CHECK(take() == TOLLMEANDER_HALTED);
    CHECK(changed() == 0);
    CHECK(report.notify == 0);
}

/*
 * A full ring is held. A guest that posts further, into slots that are not replied to, halts its
 * ring; the ids of what is held stand as they were copied, and can still be finished.
 */
static void held_slots_are_not_overwritten(void)
{
    for (uint32_t further = 1; further <= SLOTS; further += SLOTS - 1) {
        open_transmit(3);
        post_packets(3, SLOTS);
        take_packets(SLOTS);
        for (uint32_t n = 3; n < 3 + SLOTS; n++)
            write_data(n, 0, 0, 0xBAD, 1);
        set_word(RING_REQ_PROD, 3 + SLOTS + further);
        CHECK(take() == TOLLMEANDER_OVERFLOW && changed() == 0);
        for (uint32_t n = 3 + SLOTS - 1; n > 3; n--)
            CHECK(finish(n, TOLLMEANDER_REPLY_OKAY) == TOLLMEANDER_DONE && changed() == 0);
        CHECK(finish(3, TOLLMEANDER_REPLY_OKAY) == TOLLMEANDER_DONE && report.slots == SLOTS);
        for (uint32_t n = 3; n < 3 + SLOTS; n++)
            CHECK(has_reply(n, n, TOLLMEANDER_REPLY_OKAY));
        CHECK(word(RING_RSP_PROD) == 3 + SLOTS);
    }
}

/* A guest whose packets are held posts as far as 256 slots reach from the replies. */
static void held_slots_leave_room(void)
{
    open_transmit(UINT32_MAX - 20);
    post_packets(UINT32_MAX - 20, 40);
    take_packets(40);
    post_packets(UINT32_MAX + 20u, SLOTS - 40);
    take_packets(SLOTS - 40);
    CHECK(take() == TOLLMEANDER_EMPTY);
    CHECK(finish(UINT32_MAX - 20, TOLLMEANDER_REPLY_OKAY) == TOLLMEANDER_DONE);
    post_packets(SLOTS - 21, 1);
    take_packets(1);
}

/* A req_prod behind the counter is an overflow, on both rings, also among held slots. */
static void going_back_behind_the_counter_halts(void)
{
    open_transmit(3);
    post_packets(3, 1);
    take_packets(1);
    CHECK(finish(3, TOLLMEANDER_REPLY_OKAY) == TOLLMEANDER_DONE);
    set_word(RING_REQ_PROD, 3);
    CHECK(take() == TOLLMEANDER_OVERFLOW);
    CHECK(take() == TOLLMEANDER_HALTED);
    open_transmit(3);
    post_packets(3, 2);
    take_packets(2);
    set_word(RING_REQ_PROD, 4);
    CHECK(take() == TOLLMEANDER_OVERFLOW);
    CHECK(finish(3, TOLLMEANDER_REPLY_OKAY) == TOLLMEANDER_DONE && has_reply(3, 3, 0));
    open_receive(0);
    set_word(RING_REQ_PROD, UINT32_MAX);
    CHECK(put(FRAME_SIZE) == TOLLMEANDER_OVERFLOW);
    CHECK(changed() == 0);
    CHECK(put(FRAME_SIZE) == TOLLMEANDER_HALTED);
    CHECK(changed() == 0);
}

/* A req_prod that goes back within the posted slots takes none back, nor does it loop. */
static void going_back_takes_nothing_back(void)
{
    open_transmit(10);
    for (uint32_t n = 10; n < 12; n++)
        write_data(n, GREF, MORE_DATA, n, n == 10 ? FRAME_SIZE : 0);
    set_word(RING_REQ_PROD, 12);
    CHECK(take() == TOLLMEANDER_WAITING);
    set_word(RING_REQ_PROD, 11);
    CHECK(take() == TOLLMEANDER_WAITING);
    CHECK(word(RING_REQ_EVENT) == 13);
    for (uint32_t n = 10; n < 12; n++)
        write_data(n, 0, EXTRA_FOLLOWS, 99, 1);
    write_data(12, GREF, 0, 12, 0);
    set_word(RING_REQ_PROD, 13);
    CHECK(take() == TOLLMEANDER_DONE);
    CHECK(report.slots == 3 && report.total == FRAME_SIZE);
    for (uint32_t n = 10; n < 13; n++)
        write_data(n, 0, EXTRA_FOLLOWS, 99, 1);
    CHECK(finish(10, TOLLMEANDER_REPLY_OKAY) == TOLLMEANDER_DONE);
    for (uint32_t n = 10; n < 13; n++)
        CHECK(has_reply(n, n, TOLLMEANDER_REPLY_OKAY));
    CHECK(changed() == 4);
}

/* An overflow that is gone before a call tests for it leaves the ring sound. */
static void overflow_behind_a_bad_length(void)
{
    open_receive(20);
    write_request(20, 1, GREF);
    set_word(RING_REQ_PROD, 20 + 300);
    CHECK(put(1) == TOLLMEANDER_BAD_LENGTH);
    set_word(RING_REQ_PROD, 20);
    CHECK(put(FRAME_SIZE) == TOLLMEANDER_NO_BUFFERS);
    set_word(RING_REQ_PROD, 21);
    CHECK(put(FRAME_SIZE) == TOLLMEANDER_DONE);
}

/* Misshapen slots halt; the page stays, also on later calls. What is held can be finished. */
static void misshapen_halts(void)
{
    open_transmit(39);
    post_packets(39, 1);
    take_packets(1);
    write_data(40, GREF, MORE_DATA, 1, FRAME_SIZE);
    write_data(41, GREF, EXTRA_FOLLOWS, 2, 1);
    set_word(RING_REQ_PROD, 42);
    CHECK(take() == TOLLMEANDER_MISSHAPEN);
    CHECK(changed() == 0);
    CHECK(back_ring_next(take()) == BACK_DISCONNECT);
    CHECK(changed() == 0);
    CHECK(transmit.ring.consumed == 40);
    set_word(RING_RSP_EVENT, 40);
    CHECK(finish(39, TOLLMEANDER_REPLY_OKAY) == TOLLMEANDER_DONE && report.notify == 1);
    CHECK(changed() == 2 && has_reply(39, 39, TOLLMEANDER_REPLY_OKAY));
}

/* A packet without room is still there afterwards, as it was published. */
static void no_room_keeps_the_packet(void)
{
    open_transmit(1);
    write_data(1, GREF, 0, 77, FRAME_SIZE);
    set_word(RING_REQ_PROD, 2);
    keep_page();
    CHECK(back_transmit_take(&transmit, &granted, frame, FRAME_SIZE - 1, &report) ==
          TOLLMEANDER_NO_ROOM);
    CHECK(back_ring_next(report.answer) == BACK_MEND);
    CHECK(changed() == 0);
    write_data(1, 0, 0, 78, 1);
    CHECK(take() == TOLLMEANDER_DONE);
    CHECK(report.total == FRAME_SIZE);
    CHECK(finish(1, TOLLMEANDER_REPLY_OKAY) == TOLLMEANDER_DONE);
    CHECK(has_reply(1, 77, TOLLMEANDER_REPLY_OKAY));
}

/* Words of a grant table are as tollmeander.h draws them, and nothing beside them is written. */
static void grant_words_are_laid_out(void)
{
    static const uint8_t whole[] = { 0x0D, 0, 0, 0, 0, 0, 0x00, 0x10 };
    static const uint8_t range[] = { 0xFF, 0xFF, 0xFF, 0xFF, 0x02, 0x01, 0x04, 0x03 };
    static const uint8_t none[sizeof whole];
    uint8_t table[3 * sizeof whole];

    memset(table, 0xEE, sizeof table);
    grant_table_set(table, 1, 3, TOLLMEANDER_GRANTED);
    CHECK(memcmp(table + sizeof whole, whole, sizeof whole) == 0);
    grant_table_set_range(table, 1, 0x3FFFFFFF, TOLLMEANDER_GRANTED | TOLLMEANDER_GRANT_WRITABLE,
                          0x0102, 0x0304);
    CHECK(memcmp(table + sizeof whole, range, sizeof range) == 0);
    CHECK(grant_table_page(table, 1) == 0x3FFFFFFF);
    grant_table_clear(table, 1);
    CHECK(memcmp(table + sizeof whole, none, sizeof none) == 0);
    CHECK(table[sizeof whole - 1] == 0xEE && table[2 * sizeof whole] == 0xEE);
}

/* Slots that were posted before the host opened the ring are found. */
static void finds_slots_posted_before(void)
{
    open_page(0);
    write_data(0, GREF, 0, 5, FRAME_SIZE);
    set_word(RING_REQ_PROD, 1);
    reopen();
    CHECK(back_transmit_open(&transmit, &page, 0, 1));
    CHECK(take() == TOLLMEANDER_DONE);
    CHECK(back_ring_next(take()) == BACK_SLEEP);
}

int main(void)
{
    transmit_writes_little();
    receive_writes_little();
    refusals_write_little();
    spoiled_waits_its_turn();
    goes_through_the_wrap();
    replies_leave_in_order();
    statuses_reach_the_guest();
    notifies_by_the_page();
    no_record_waits_for_the_device();
    overflow_halts();
    held_slots_are_not_overwritten();
    held_slots_leave_room();
    going_back_behind_the_counter_halts();
    going_back_takes_nothing_back();
    overflow_behind_a_bad_length();
    misshapen_halts();
    no_room_keeps_the_packet();
    grant_words_are_laid_out();
    finds_slots_posted_before();
    random_calls(1);
    return check_result("edges");
}
