/*
 * tollmeander_transmit_finish by its header: each answer is produced by a call and compared with
 * the header's constant, and a refused call leaves all that was lent. Replies leave in the order of
 * taking, with each packet's own status. A list of records that no call leaves is refused by take
 * and by finish.
 */
#include <limits.h>
#include <stddef.h>
#include <stdint.h>
#include <string.h>

#include "lent.h"

enum { OKAY = TOLLMEANDER_REPLY_OKAY, ERROR = TOLLMEANDER_REPLY_ERROR,
       DROPPED = TOLLMEANDER_REPLY_DROPPED };

/* Posts a packet of one slot and takes it. */
static void take_one(uint32_t id)
{
    uint32_t ticket = consumed;

    post_data(READ_GREF, 0, 0, id, 60);
    REPORTS(TAKE(), TOLLMEANDER_DONE, 0, 0, 1, 0, 60, [TICKET] = ticket);
}

/* A packet with two extras, across the wrap. What else stands on the page stays. */
static void check_done(int32_t status)
{
    static struct lent_copy expected;
    const uint32_t first = UINT32_MAX - 1;

    open_queue(first);
    post_data(READ_GREF, 100, MORE_DATA | EXTRA_FOLLOWS, 7, 1500);
    post_extra(1, EXTRA_MORE, 1460, 2);
    post_extra(1, 0, 1460, 2);
    post_data(WRITE_GREF, 9, 0, UINT16_MAX, 300);
    REPORTS(TAKE(), TOLLMEANDER_DONE, 0, 0, 4, 0, 1500, 0, 0, 1460, 2, first);
    put32(ring + TOLLMEANDER_RING_RSP_PROD, 4711);
    copy_lent(&expected);
    put32(expected.ring + TOLLMEANDER_RING_RSP_PROD, 2);
    memset(&expected.held[0], 0, sizeof expected.held[0]);
    expected.replied = 2;
    REPORTS(FINISH(first, status), TOLLMEANDER_DONE, 0, 0, 4, 1);
    CHECK(is_reply(first, 7, status) && is_reply(1, UINT16_MAX, status));
    CHECK(is_extra_reply(UINT32_MAX) && is_extra_reply(0));
    for (uint32_t n = first; n != 2; n++)
        memcpy(expected.ring + (transmit_slot(n) - ring), transmit_slot(n), 4);
    CHECK(is_lent(&expected));
    REFUSES(FINISH(first, status), TOLLMEANDER_BAD_TICKET);
}

/* Ids are read when a reply leaves; slots, extras and status are the record's. */
static void check_late_ids(void)
{
    open_queue(0);
    post_data(READ_GREF, 0, EXTRA_FOLLOWS, 1, 60);
    post_extra(1, 0, 1460, 1);
    REPORTS(TAKE(), TOLLMEANDER_DONE, 0, 0, 2, 0, 60, 0, 0, 1460, 1);
    memset(transmit_slot(0), 0x11, 2 * TOLLMEANDER_TRANSMIT_SLOT_SIZE);
    REPORTS(FINISH(0, DROPPED), TOLLMEANDER_DONE, 0, 0, 2, 1);
    CHECK(is_reply(0, 0x1111, DROPPED) && is_extra_reply(1));
}

/* rsp_prod and notify go by the replies that leave; req_prod does not matter. */
static void check_notify(void)
{
    for (uint32_t rsp_event = 248; rsp_event < 256; rsp_event++) {
        open_queue(250);
        for (uint32_t i = 0; i < 4; i++)
            take_one(i);
        put32(ring + TOLLMEANDER_RING_RSP_EVENT, rsp_event);
        put32(ring + TOLLMEANDER_RING_REQ_PROD, 100000);
        put32(ring + TOLLMEANDER_RING_RSP_PROD, 4711);
        REPORTS(FINISH(252, OKAY), TOLLMEANDER_DONE, 0);
        REPORTS(FINISH(251, OKAY), TOLLMEANDER_DONE, 0);
        CHECK(get32(ring + TOLLMEANDER_RING_RSP_PROD) == 4711 && replied == 250);
        REPORTS(FINISH(250, OKAY), TOLLMEANDER_DONE, 0, 0, 3,
                rsp_event >= 251 && rsp_event <= 253);
        CHECK(get32(ring + TOLLMEANDER_RING_RSP_PROD) == 253 && replied == 253);
        CHECK(get32(ring + TOLLMEANDER_RING_REQ_EVENT) == 0 && consumed == 254);
    }
}

/* Finishes four held packets in an order, each with a status of its own. */
static void check_order_of(const uint32_t order[4])
{
    static const int32_t statuses[4] = { OKAY, DROPPED, ERROR, DROPPED };
    bool finished[4] = { false };
    uint32_t left = 0;

    open_queue(UINT32_MAX);
    for (uint32_t i = 0; i < 4; i++)
        take_one(40 + i);
    for (uint32_t turn = 0; turn < 4; turn++) {
        uint32_t packet = order[turn], before = left;

        finished[packet] = true;
        while (left < 4 && finished[left])
            left++;
        put32(ring + TOLLMEANDER_RING_RSP_EVENT, UINT32_MAX + left);
        REPORTS(FINISH(UINT32_MAX + packet, statuses[packet]), TOLLMEANDER_DONE, 0, 0,
                left - before, left > before);
        CHECK(replied == UINT32_MAX + left);
        for (uint32_t i = 0; i < 4; i++) {
            CHECK(is_reply(UINT32_MAX + i, 40 + i, statuses[i]) == (i < left));
            if (i < left)
                CHECK(is_zeroed(i));
            else
                CHECK(holds(i, UINT32_MAX + i, 1, 0, finished[i] ? statuses[i] : 0, finished[i]));
        }
    }
}

/* Packets are finished in every order, and leave in the order of taking. */
static void check_orders(void)
{
    for (uint32_t code = 0; code < 256; code++) {
        const uint32_t order[4] = { code & 3, code >> 2 & 3, code >> 4 & 3, code >> 6 };

        if ((1u << order[0] | 1u << order[1] | 1u << order[2] | 1u << order[3]) == 15)
            check_order_of(order);
    }
}

/* A spoiled packet waits behind an older one, and both leave at one finish. */
static void check_spoiled(void)
{
    open_queue(5);
    take_one(1);
    post_data(CLEAR_GREF, 0, 0, 2, 60);
    REPORTS(TAKE(), TOLLMEANDER_SPOILED, TOLLMEANDER_CAUSE_GRANT, 0, 1, 0);
    take_one(3);
    REFUSES(FINISH(6, ERROR), TOLLMEANDER_BAD_TICKET);
    REPORTS(FINISH(5, OKAY), TOLLMEANDER_DONE, 0, 0, 2, 1);
    CHECK(is_reply(5, 1, OKAY) && is_reply(6, 2, ERROR) && replied == 7);
    CHECK(is_zeroed(0) && is_zeroed(1) && holds(2, 7, 1, 0, OKAY, 0));
    take_one(4);
    CHECK(holds(0, 8, 1, 0, OKAY, 0));
}

/* No packet has the ticket, or it is not the packet's first slot, or the packet is finished. */
static void check_tickets(void)
{
    static const int32_t others[] = { 1, 2, -3, UINT16_MAX, UINT16_MAX - 1, INT32_MAX, INT32_MIN };

    open_queue(UINT32_MAX);
    REFUSES(FINISH(UINT32_MAX, OKAY), TOLLMEANDER_BAD_TICKET);
    post_data(READ_GREF, 0, MORE_DATA, 1, 60);
    post_data(READ_GREF, 0, 0, 2, 10);
    REPORTS(TAKE(), TOLLMEANDER_DONE, 0, 0, 2, 0, 60, [TICKET] = UINT32_MAX);
    take_one(3);
    REFUSES(FINISH(UINT32_MAX - 1, OKAY), TOLLMEANDER_BAD_TICKET);
    REFUSES(FINISH(0, OKAY), TOLLMEANDER_BAD_TICKET);
    REFUSES(FINISH(2, OKAY), TOLLMEANDER_BAD_TICKET);
    REFUSES(FINISH(UINT32_MAX + 256, OKAY), TOLLMEANDER_BAD_TICKET);
    for (size_t i = 0; i < sizeof others / sizeof others[0]; i++)
        REFUSES(FINISH(1, others[i]), TOLLMEANDER_BAD_TICKET);
    REPORTS(FINISH(1, DROPPED), TOLLMEANDER_DONE, 0);
    REFUSES(FINISH(1, OKAY), TOLLMEANDER_BAD_TICKET);
    REPORTS(FINISH(UINT32_MAX, ERROR), TOLLMEANDER_DONE, 0, 0, 3, 1);
}

/* Each answer where all that is looked for later is wrong as well; the mark does not matter. */
static void check_order_of_answers(void)
{
    open_queue(0);
    take_one(1);
    halted = 1;
    held[0].slots = 2;
    REFUSES(finish(TOLLMEANDER_PAGE_SIZE - 1, 9, 9), TOLLMEANDER_BAD_PAGE);
    REFUSES(finish(TOLLMEANDER_PAGE_SIZE + 1, 9, 9), TOLLMEANDER_BAD_PAGE);
    REFUSES(finish(0, 9, 9), TOLLMEANDER_BAD_PAGE);
    REFUSES(take(TOLLMEANDER_PAGE_SIZE - 1, 0), TOLLMEANDER_BAD_PAGE);
    REFUSES(FINISH(9, 9), TOLLMEANDER_BAD_RECORDS);
    REFUSES(TAKE(), TOLLMEANDER_BAD_RECORDS);
    held[0].slots = 1;
    REFUSES(FINISH(9, OKAY), TOLLMEANDER_BAD_TICKET);
    REFUSES(TAKE(), TOLLMEANDER_HALTED);
    REPORTS(FINISH(0, OKAY), TOLLMEANDER_DONE, 0, 0, 1, 1);
    CHECK(halted == 1);
}

/* A ring full of packets, finished from the last to the first: at the first all leave. */
static void check_full_ring(void)
{
    const uint32_t first = UINT32_MAX - 100, slots = TOLLMEANDER_RING_SLOTS;

    open_queue(first);
    lend_records(TOLLMEANDER_HELD_MAX);
    for (uint32_t i = 0; i < slots; i++)
        take_one(i);
    REPORTS(TAKE(), TOLLMEANDER_EMPTY, 0);
    for (uint32_t i = slots - 1; i > 0; i--)
        REPORTS(FINISH(first + i, DROPPED), TOLLMEANDER_DONE, 0);
    REPORTS(FINISH(first, OKAY), TOLLMEANDER_DONE, 0, 0, slots, 1);
    CHECK(consumed == first + slots && replied == consumed);
    for (uint32_t i = 0; i < slots; i++)
        CHECK(is_reply(first + i, i, i == 0 ? OKAY : DROPPED) && is_zeroed(i));
    CHECK(held[TOLLMEANDER_HELD_MAX].slots != 0);
    take_one(1);
}

/* Two packets of one slot and of three with an extra, as they are held at counters 0 and 4. */
static void hold_two(void)
{
    open_queue(0);
    consumed = 4;
    put32(ring + TOLLMEANDER_RING_REQ_PROD, 4);
    held[1] = (struct tollmeander_held){ 1, 3, 1, OKAY, 0 };
    held[3] = (struct tollmeander_held){ 0, 1, 0, OKAY, 0 };
}

/* Checks that the list is refused by both calls. */
static void refuse_list(void)
{
    REFUSES(TAKE(), TOLLMEANDER_BAD_RECORDS);
    REFUSES(FINISH(0, OKAY), TOLLMEANDER_BAD_RECORDS);
    REFUSES(FINISH(1, OKAY), TOLLMEANDER_BAD_RECORDS);
    REFUSES(FINISH(9, 9), TOLLMEANDER_BAD_RECORDS);
}

/* Checks that a list is refused with a word of the second packet changed. */
static void refuse_word(uint32_t *word, uint32_t value)
{
    uint32_t before = *word;

    *word = value;
    refuse_list();
    *word = before;
    REPORTS(TAKE(), TOLLMEANDER_EMPTY, 0);
}

/* Counts, statuses and marks of single records. */
static void check_words(void)
{
    hold_two();
    refuse_word(&held[1].ticket, 0);
    refuse_word(&held[1].ticket, 2);
    refuse_word(&held[1].ticket, UINT32_MAX);
    refuse_word(&held[1].slots, 0);
    refuse_word(&held[1].slots, 2);
    refuse_word(&held[1].slots, 4);
    refuse_word(&held[1].slots, UINT32_MAX);
    refuse_word(&held[1].extras, 3);
    refuse_word(&held[1].extras, UINT32_MAX);
    refuse_word((uint32_t *)&held[1].status, 1);
    refuse_word((uint32_t *)&held[1].status, UINT16_MAX);
    refuse_word((uint32_t *)&held[1].status, UINT16_MAX - 1);
    refuse_word((uint32_t *)&held[1].status, (uint32_t)-3);
    refuse_word(&held[3].finished, 1);
    refuse_word(&held[3].finished, UINT32_MAX);
    refuse_word(&held[0].slots, 1);
    refuse_word(&replied, 1);
    refuse_word(&replied, UINT32_MAX);
    refuse_word(&consumed, 3);
    refuse_word(&consumed, 5);
}

/* What does not matter: junk in free records, a status before finishing, the value of finished. */
static void check_other_words(void)
{
    hold_two();
    held[0] = (struct tollmeander_held){ 0, 0, 99, 1, 1 };
    held[2] = (struct tollmeander_held){ 1, 0, 0, 0, 0 };
    held[1].status = DROPPED;
    held[1].finished = UINT32_MAX;
    held[3].status = ERROR;
    REFUSES(FINISH(1, OKAY), TOLLMEANDER_BAD_TICKET);
    REPORTS(FINISH(0, OKAY), TOLLMEANDER_DONE, 0, 0, 4, 1);
    CHECK(is_reply(0, 0, OKAY) && is_reply(1, 0, DROPPED) && is_extra_reply(2));
    CHECK(is_reply(3, 0, DROPPED) && is_zeroed(1) && is_zeroed(3));
    CHECK(holds(0, 0, 0, 99, 1, 1) && holds(2, 1, 0, 0, 0, 0));
}

/* Every count of slots and extras, of packets and of none. */
static void check_counts(void)
{
    for (uint32_t slots = 1; slots < 30; slots++)
        for (uint32_t extras = 0; extras < 30; extras++) {
            bool is_packet = extras <= TOLLMEANDER_PACKET_EXTRAS_MAX && extras < slots &&
                             slots <= extras + TOLLMEANDER_PACKET_DATA_MAX;

            open_queue(0);
            consumed = slots;
            put32(ring + TOLLMEANDER_RING_REQ_PROD, slots);
            held[0] = (struct tollmeander_held){ 0, slots, extras, OKAY, 0 };
            if (is_packet)
                REPORTS(FINISH(0, OKAY), TOLLMEANDER_DONE, 0, 0, slots, 1);
            else
                REFUSES(FINISH(0, OKAY), TOLLMEANDER_BAD_RECORDS);
        }
}

/* More than 256 records, or more than 256 slots between the counters. */
static void check_limits(void)
{
    const uint32_t most = TOLLMEANDER_HELD_MAX;

    open_queue(0);
    lend_records(most + 1);
    refuse_list();
    held_len = most;
    REPORTS(TAKE(), TOLLMEANDER_EMPTY, 0);
    for (uint32_t i = 0; i < 16; i++)
        held[i] = (struct tollmeander_held){ i * 16, 16, 0, OKAY, 0 };
    consumed = 256;
    put32(ring + TOLLMEANDER_RING_REQ_PROD, 256);
    REPORTS(TAKE(), TOLLMEANDER_EMPTY, 0);
    held[16] = (struct tollmeander_held){ 256, 1, 0, OKAY, 0 };
    consumed = 257;
    refuse_list();
}

/* Whether each slot between the counters is in exactly one record, and no other slot in any. */
static bool covers(uint32_t slots)
{
    uint32_t owners[8] = { 0 };

    for (size_t i = 0; i < held_len; i++)
        for (uint32_t k = 0; k < held[i].slots; k++) {
            uint32_t n = held[i].ticket + k - replied;

            if (n >= slots)
                return false;
            owners[n]++;
        }
    for (uint32_t n = 0; n < slots; n++)
        if (owners[n] != 1)
            return false;
    return true;
}

/* Every list of three records of up to three slots, from a slot before the counters on. */
static void check_covers(void)
{
    enum { LISTS = 24 * 24 * 24 };
    const uint32_t first = UINT32_MAX - 1;

    open_queue(first);
    lend_records(3);
    for (uint32_t slots = 0; slots <= 4; slots++)
        for (uint32_t list = 0; list < LISTS; list++) {
            uint32_t code = list;

            for (size_t i = 0; i < 3; i++, code /= 24)
                held[i] = (struct tollmeander_held){ first - 1 + code % 24 / 4, code % 4, 0, 0, 0 };
            consumed = first + slots;
            put32(ring + TOLLMEANDER_RING_REQ_PROD, consumed);
            REPORTS(TAKE(), covers(slots) ? TOLLMEANDER_EMPTY : TOLLMEANDER_BAD_RECORDS, 0);
            REPORTS(FINISH(first - 1, OKAY),
                    covers(slots) ? TOLLMEANDER_BAD_TICKET : TOLLMEANDER_BAD_RECORDS, 0);
        }
}

int main(void)
{
    check_done(OKAY);
    check_done(ERROR);
    check_done(DROPPED);
    check_late_ids();
    check_notify();
    check_orders();
    check_spoiled();
    check_tickets();
    check_order_of_answers();
    check_full_ring();
    check_words();
    check_other_words();
    check_counts();
    check_limits();
    check_covers();
    return check_result("finish");
}
