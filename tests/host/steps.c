/*
 * back_ring.c in steps, on one thread: what each step writes and leaves alone, replies that are
 * published later than their packets are finished, references, frames that cannot be delivered;
 * opening and closing; tickets that finish nothing, and how long one is open; what a host does
 * after each answer, and the answers' names.
 */
#include <stdbool.h>
#include <stdint.h>
#include <string.h>

#include "back_ring.h"
#include "back_scene.h"
#include "check.h"
#include "names.h"
#include "slot_bits.h"

enum { FRAME_SIZE = 60, COUNTER = 254 };

static struct back_transmit transmit;
static struct back_receive receive;
static struct tollmeander_report report;
static uint8_t frame[TOLLMEANDER_FRAME_MAX];

static void open_both(uint32_t counter)
{
    litter_page();
    set_word(RING_REQ_PROD, counter);
    open_pages();
    back_ring_close(&transmit.ring);
    back_ring_close(&receive.ring);
    CHECK(back_transmit_open(&transmit, &page, counter, TOLLMEANDER_HELD_MAX));
    CHECK(transmit.connection != 0);
    CHECK(back_receive_open(&receive, &page, counter));
    keep_page();
}

static void post_packet(uint32_t n, uint32_t gref, uint32_t id)
{
    uint32_t first = ring_slot(TRANSMIT_SLOT_WORDS, n);

    set_word(first, gref);
    set_word(first + 1, 0);
    set_word(first + 2, id | (uint32_t)FRAME_SIZE << 16);
    set_word(RING_REQ_PROD, n + 1);
    keep_page();
}

static void post_request(uint32_t n, uint32_t gref, uint32_t id)
{
    uint32_t first = ring_slot(RECEIVE_SLOT_WORDS, n);

    set_word(first, id | 0xFFFF0000);
    set_word(first + 1, gref);
    set_word(RING_REQ_PROD, n + 1);
    keep_page();
}

static uint32_t take(void)
{
    return back_transmit_take_copied(&transmit, &granted, frame, sizeof frame, &report);
}

static struct back_ticket ticket_at(uint32_t slot)
{
    struct back_ticket ticket = { transmit.connection, slot };

    return ticket;
}

/* Finishes the packet whose first slot is n, and publishes nothing. */
static uint32_t finish(uint32_t n)
{
    return back_transmit_finish_copied(&transmit, ticket_at(n), TOLLMEANDER_REPLY_OKAY, &report);
}

/* A look and calls write nothing to the page; publishing writes the reply and rsp_prod. */
static void nothing_is_published_early(void)
{
    open_both(COUNTER);
    set_word(RING_RSP_EVENT, COUNTER + 1);
    post_packet(COUNTER, GREF, 77);
    back_ring_look(&transmit.ring);
    CHECK(transmit.ring.copied == COUNTER + 1 && transmit.ring.consumed == COUNTER);
    CHECK(take() == TOLLMEANDER_DONE);
    CHECK(report.slots == 1 && report.notify == 0);
    CHECK(!back_ring_publish(&transmit.ring));
    CHECK(finish(COUNTER) == TOLLMEANDER_DONE);
    CHECK(report.slots == 1 && report.notify == 0);
    CHECK(changed() == 0);
    CHECK(back_ring_publish(&transmit.ring));
    CHECK(changed() == 2);
    CHECK(word(RING_RSP_PROD) == COUNTER + 1);
    CHECK(word(ring_slot(TRANSMIT_SLOT_WORDS, COUNTER)) == 77);
    CHECK(!back_ring_publish(&transmit.ring));
    CHECK(changed() == 2);
}

/* Without a look a call knows only the slots copied before. */
static void calls_use_what_was_copied(void)
{
    open_both(COUNTER);
    post_packet(COUNTER, GREF, 1);
    CHECK(take() == TOLLMEANDER_EMPTY);
    CHECK(changed() == 0);
    CHECK(!back_ring_may_sleep(&transmit.ring));
    CHECK(take() == TOLLMEANDER_DONE);
    CHECK(!back_ring_publish(&transmit.ring));
    CHECK(take() == TOLLMEANDER_EMPTY);
    CHECK(back_ring_may_sleep(&transmit.ring));
    CHECK(word(RING_REQ_EVENT) == COUNTER + 2);
}

/* Where no call wants more slots, the guest would not notify: the host may not sleep. */
static void nobody_sleeps_without_asking(void)
{
    open_both(COUNTER);
    post_packet(COUNTER, GREF, 1);
    CHECK(!back_ring_may_sleep(&transmit.ring));
    back_ring_look(&transmit.ring);
    CHECK(take() == TOLLMEANDER_DONE);
    CHECK(!back_ring_may_sleep(&transmit.ring));
    CHECK(take() == TOLLMEANDER_EMPTY && back_ring_may_sleep(&transmit.ring));
    back_ring_close(&transmit.ring);
    CHECK(back_transmit_open(&transmit, &page, COUNTER, 1));
    post_packet(COUNTER, GREF, 1);
    post_packet(COUNTER + 1, GREF, 2);
    back_ring_look(&transmit.ring);
    CHECK(take() == TOLLMEANDER_DONE && take() == TOLLMEANDER_NO_RECORD);
    CHECK(!back_ring_may_sleep(&transmit.ring) && changed() == 0);
    CHECK(finish(COUNTER) == TOLLMEANDER_DONE);
    back_ring_publish(&transmit.ring);
    CHECK(take() == TOLLMEANDER_DONE && take() == TOLLMEANDER_EMPTY);
    CHECK(back_ring_may_sleep(&transmit.ring) && word(RING_REQ_EVENT) == COUNTER + 3);
}

/* Three packets, across the ring's end, are finished before their replies are published at once. */
static void replies_leave_together(void)
{
    for (uint32_t rsp_event = COUNTER; rsp_event < COUNTER + 5; rsp_event++) {
        open_both(COUNTER);
        set_word(RING_RSP_EVENT, rsp_event);
        for (uint32_t n = COUNTER; n < COUNTER + 3; n++)
            post_packet(n, GREF, n);
        back_ring_look(&transmit.ring);
        for (int i = 0; i < 3; i++)
            CHECK(take() == TOLLMEANDER_DONE);
        CHECK(take() == TOLLMEANDER_EMPTY);
        for (uint32_t n = COUNTER + 3; n > COUNTER; n--)
            CHECK(finish(n - 1) == TOLLMEANDER_DONE);
        CHECK(changed() == 0);
        CHECK(!back_ring_may_sleep(&transmit.ring));
        CHECK(changed() == 0);
        CHECK(back_ring_publish(&transmit.ring) ==
              (rsp_event > COUNTER && rsp_event <= COUNTER + 3));
        CHECK(word(RING_RSP_PROD) == COUNTER + 3);
        for (uint32_t n = COUNTER; n < COUNTER + 3; n++)
            CHECK(word(ring_slot(TRANSMIT_SLOT_WORDS, n)) == n);
        CHECK(changed() == 4);
        CHECK(back_ring_may_sleep(&transmit.ring));
    }
}

/*
 * A guest that posts where a reply waits to be published does not reach that reply, and its slot
 * does not count before the reply is published.
 */
static void a_waiting_reply_is_not_overwritten(void)
{
    open_both(0);
    for (uint32_t n = 0; n < TOLLMEANDER_RING_SLOTS; n++)
        post_packet(n, GREF, n);
    back_ring_look(&transmit.ring);
    CHECK(take() == TOLLMEANDER_DONE && finish(0) == TOLLMEANDER_DONE);
    post_packet(TOLLMEANDER_RING_SLOTS, GREF, 999);
    back_ring_look(&transmit.ring);
    CHECK(transmit.ring.copied == TOLLMEANDER_RING_SLOTS);
    for (uint32_t n = 1; n < TOLLMEANDER_RING_SLOTS; n++)
        CHECK(take() == TOLLMEANDER_DONE);
    CHECK(take() == TOLLMEANDER_EMPTY);
    back_ring_publish(&transmit.ring);
    CHECK(word(ring_slot(TRANSMIT_SLOT_WORDS, 0)) == 0);
    CHECK(word(RING_RSP_PROD) == 1);
    post_packet(TOLLMEANDER_RING_SLOTS, GREF, 999);
    back_ring_look(&transmit.ring);
    CHECK(transmit.ring.copied == TOLLMEANDER_RING_SLOTS + 1);
}

/*
 * A reply that was left waiting leaves with a call of all steps, and its notification with it, also
 * where the call goes on to a packet, whose replies are not due.
 */
static void a_whole_call_publishes_what_waits(void)
{
    for (uint32_t more = 0; more < 2; more++) {
        open_both(COUNTER);
        set_word(RING_RSP_EVENT, COUNTER + 1);
        post_packet(COUNTER, GREF, 5);
        back_ring_look(&transmit.ring);
        CHECK(take() == TOLLMEANDER_DONE && finish(COUNTER) == TOLLMEANDER_DONE);
        if (more)
            post_packet(COUNTER + 1, GREF, 6);
        CHECK(back_transmit_take(&transmit, &granted, frame, sizeof frame, &report) ==
              (more ? TOLLMEANDER_DONE : TOLLMEANDER_EMPTY));
        CHECK(report.notify == 1);
        CHECK(word(RING_RSP_PROD) == COUNTER + 1);
        CHECK(word(RING_REQ_EVENT) == COUNTER + 2);
    }
}

/* A finish of all steps publishes what waits, with its notification; a refused one nothing. */
static void a_whole_finish_publishes_what_waits(void)
{
    open_both(COUNTER);
    set_word(RING_RSP_EVENT, COUNTER + 1);
    post_packet(COUNTER, GREF, 55);
    post_packet(COUNTER + 1, GREF, 56);
    back_ring_look(&transmit.ring);
    CHECK(take() == TOLLMEANDER_DONE && take() == TOLLMEANDER_DONE);
    CHECK(finish(COUNTER) == TOLLMEANDER_DONE);
    CHECK(back_transmit_finish(&transmit, ticket_at(COUNTER), 0, &report) ==
          TOLLMEANDER_BAD_TICKET);
    CHECK(report.notify == 0 && changed() == 0);
    CHECK(back_transmit_finish(&transmit, ticket_at(COUNTER + 1), 0, &report) ==
          TOLLMEANDER_DONE);
    CHECK(report.slots == 1 && report.notify == 1 && changed() == 3);
    CHECK(word(RING_RSP_PROD) == COUNTER + 2);
}

/* References are those of the slots as they were copied, also when a reply stands in the slot. */
static void references_are_kept(void)
{
    open_both(COUNTER);
    for (uint32_t n = COUNTER; n < COUNTER + 3; n++)
        post_packet(n, GREF + n - COUNTER, n);
    back_ring_look(&transmit.ring);
    for (uint32_t n = COUNTER; n < COUNTER + 3; n++)
        set_word(ring_slot(TRANSMIT_SLOT_WORDS, n), 0);
    for (int i = 0; i < 3; i++)
        CHECK(take() == TOLLMEANDER_DONE);
    for (uint32_t n = COUNTER; n < COUNTER + 3; n++)
        CHECK(back_ring_reference(&transmit.ring, n) == GREF + n - COUNTER);
    open_both(COUNTER);
    post_request(COUNTER, GREF + 2, 9);
    back_ring_look(&receive.ring);
    CHECK(back_receive_put_copied(&receive, &granted, frame, FRAME_SIZE, &report) ==
          TOLLMEANDER_DONE);
    CHECK(back_ring_reference(&receive.ring, COUNTER) == GREF + 2);
}

/* A frame of two pages that cannot be brought to the guest: errors to both, as of one spoiled. */
static void a_put_is_refused_whole(void)
{
    open_both(COUNTER + 1);
    for (uint32_t n = COUNTER + 1; n < COUNTER + 4; n++)
        post_request(n, GREF, n);
    back_ring_look(&receive.ring);
    CHECK(back_receive_put_copied(&receive, &granted, frame, FRAME_SIZE, &report) ==
          TOLLMEANDER_DONE);
    CHECK(back_receive_put_copied(&receive, &granted, frame, TOLLMEANDER_PAGE_SIZE + 1, &report) ==
          TOLLMEANDER_DONE);
    back_receive_refuse(&receive, 1, &report);
    CHECK(report.answer == TOLLMEANDER_SPOILED && report.cause == TOLLMEANDER_CAUSE_GRANT);
    CHECK(report.place == 1 && report.slots == 2 && report.total == 0);
    back_ring_publish(&receive.ring);
    CHECK(word(RING_RSP_PROD) == COUNTER + 4);
    for (uint32_t n = COUNTER + 1; n < COUNTER + 4; n++) {
        uint32_t first = ring_slot(RECEIVE_SLOT_WORDS, n);

        CHECK(word(first) == n);
        CHECK(word(first + 1) == (n == COUNTER + 1 ? (uint32_t)FRAME_SIZE << 16 : 0xFFFF0000));
    }
    CHECK(changed() == 7);
}

/* What is not DONE has nothing to refuse. */
static void a_refusal_is_not_refused_again(void)
{
    struct tollmeander_report was;

    open_both(COUNTER);
    post_request(COUNTER, FREE_GREF, 3);
    back_ring_look(&receive.ring);
    CHECK(back_receive_put_copied(&receive, &granted, frame, FRAME_SIZE, &report) ==
          TOLLMEANDER_SPOILED);
    was = report;
    back_receive_refuse(&receive, 5, &report);
    CHECK(memcmp(&was, &report, sizeof report) == 0);
}

/* A ring that is open is not opened again: its queue goes on. */
static void opening_twice_is_refused(void)
{
    static struct ring_page other;

    open_both(COUNTER);
    post_packet(COUNTER, GREF, 5);
    back_ring_look(&transmit.ring);
    CHECK(!back_transmit_open(&transmit, &other, 0, 1));
    CHECK(!back_transmit_open(&transmit, &page, COUNTER, 1));
    CHECK(!back_receive_open(&receive, &other, 0));
    CHECK(take() == TOLLMEANDER_DONE && transmit.ring.consumed == COUNTER + 1);
    CHECK(finish(COUNTER) == TOLLMEANDER_DONE);
    back_ring_close(&transmit.ring);
    CHECK(!back_transmit_open(&transmit, NULL, 0, 1));
    CHECK(!back_transmit_open(&transmit, (uint8_t *)&other + 2, 0, 1));
    CHECK(back_transmit_open(&transmit, &other, 7, 1));
    CHECK(transmit.ring.consumed == 7 && transmit.ring.copied == 7 && !transmit.ring.halted);
    back_ring_close(&transmit.ring);
}

/* From 1 to 256 packets can be held; another number is refused, and changes nothing. */
static void records_are_bounded(void)
{
    static struct back_transmit was;

    back_ring_close(&transmit.ring);
    was = transmit;
    CHECK(!back_transmit_open(&transmit, &page, 0, 0));
    CHECK(!back_transmit_open(&transmit, &page, 0, TOLLMEANDER_HELD_MAX + 1));
    CHECK(!back_transmit_open(&transmit, &page, 0, UINT32_MAX));
    CHECK(memcmp(&was, &transmit, sizeof transmit) == 0);
    CHECK(back_transmit_open(&transmit, &page, 0, TOLLMEANDER_HELD_MAX));
}

/* What was held is gone with its connection: a ring opened again holds nothing. */
static void a_fresh_queue_holds_nothing(void)
{
    open_both(COUNTER);
    post_packet(COUNTER, GREF, 5);
    back_ring_look(&transmit.ring);
    CHECK(take() == TOLLMEANDER_DONE);
    open_both(COUNTER + 9);
    CHECK(take() == TOLLMEANDER_EMPTY);
    CHECK(transmit.replied == COUNTER + 9);
}

/* Calls on a ring that is not open are told halted, and nothing is touched. */
static void not_open_is_halted(void)
{
    static struct back_transmit never;
    static struct back_receive neither;

    open_both(COUNTER);
    post_packet(COUNTER, GREF, 5);
    back_ring_look(&transmit.ring);
    CHECK(take() == TOLLMEANDER_DONE && finish(COUNTER) == TOLLMEANDER_DONE);
    back_ring_close(&transmit.ring);
    back_ring_close(&receive.ring);
    CHECK(!back_ring_publish(&transmit.ring));
    CHECK(back_ring_may_sleep(&transmit.ring));
    CHECK(back_transmit_take(&transmit, &granted, frame, sizeof frame, &report) ==
          TOLLMEANDER_HALTED);
    CHECK(back_receive_put(&receive, &granted, frame, FRAME_SIZE, &report) == TOLLMEANDER_HALTED);
    CHECK(back_transmit_take(&never, &granted, frame, sizeof frame, &report) ==
          TOLLMEANDER_HALTED);
    CHECK(back_receive_put(&neither, &granted, frame, FRAME_SIZE, &report) == TOLLMEANDER_HALTED);
    CHECK(changed() == 0);
}

/* Whether a finish is told bad ticket, with the rest of its report 0, and changes nothing. */
static bool finishes_nothing(struct back_ticket ticket, int32_t status)
{
    static const struct tollmeander_report refusal = { .answer = TOLLMEANDER_BAD_TICKET };
    static struct back_transmit was;

    was = transmit;
    keep_page();
    memset(&report, 0xEE, sizeof report);
    return back_transmit_finish(&transmit, ticket, status, &report) == TOLLMEANDER_BAD_TICKET &&
           memcmp(&report, &refusal, sizeof report) == 0 &&
           memcmp(&was, &transmit, sizeof was) == 0 && changed() == 0;
}

/* Two packets are held; the first one's ticket. */
static struct back_ticket hold_two(void)
{
    struct back_ticket first;

    open_both(COUNTER);
    post_packet(COUNTER, GREF, 5);
    post_packet(COUNTER + 1, GREF, 6);
    back_ring_look(&transmit.ring);
    CHECK(take() == TOLLMEANDER_DONE);
    first = back_transmit_ticket(&transmit, &report);
    CHECK(first.connection == transmit.connection && first.slot == COUNTER);
    CHECK(take() == TOLLMEANDER_DONE);
    return first;
}

/* A ticket of a slot that no packet begins with, another status, a packet that is finished. */
static void bad_tickets_finish_nothing(void)
{
    struct back_ticket first = hold_two();

    CHECK(finishes_nothing(ticket_at(COUNTER - 1), TOLLMEANDER_REPLY_OKAY));
    CHECK(finishes_nothing(ticket_at(COUNTER + 2), TOLLMEANDER_REPLY_OKAY));
    CHECK(finishes_nothing(first, 1));
    CHECK(finishes_nothing(first, 65535));
    CHECK(finish(COUNTER + 1) == TOLLMEANDER_DONE);
    CHECK(finishes_nothing(ticket_at(COUNTER + 1), TOLLMEANDER_REPLY_DROPPED));
    CHECK(finish(COUNTER) == TOLLMEANDER_DONE);
    back_ring_publish(&transmit.ring);
    CHECK(finishes_nothing(first, TOLLMEANDER_REPLY_OKAY));
}

/* A take that hands nothing over has no ticket, and that finishes nothing. */
static void no_packet_has_no_ticket(void)
{
    struct back_ticket none;

    open_both(0);
    post_packet(0, GREF, 5);
    back_ring_look(&transmit.ring);
    CHECK(take() == TOLLMEANDER_DONE && take() == TOLLMEANDER_EMPTY);
    none = back_transmit_ticket(&transmit, &report);
    CHECK(none.connection == 0 && none.slot == 0);
    CHECK(finishes_nothing(none, TOLLMEANDER_REPLY_OKAY));
}

/*
 * A ticket is good for its connection alone: not when the ring is closed, nor for the packet at the
 * same slot of the next queue, whether the end of the ring was opened again, zeroed, or is another
 * guest's.
 */
static void tickets_end_with_their_connection(void)
{
    static struct back_transmit other;
    static struct ring_page other_page;
    struct back_ticket old;

    memset(&transmit, 0, sizeof transmit);
    old = hold_two();
    memset(&transmit, 0, sizeof transmit);
    CHECK(finishes_nothing(old, TOLLMEANDER_REPLY_OKAY));
    hold_two();
    CHECK(finishes_nothing(old, TOLLMEANDER_REPLY_OKAY));
    old = ticket_at(COUNTER);
    back_ring_close(&transmit.ring);
    CHECK(finishes_nothing(old, TOLLMEANDER_REPLY_OKAY));
    hold_two();
    CHECK(finishes_nothing(old, TOLLMEANDER_REPLY_OKAY));
    CHECK(back_transmit_open(&other, &other_page, COUNTER, 1));
    old.connection = other.connection;
    CHECK(finishes_nothing(old, TOLLMEANDER_REPLY_OKAY));
    CHECK(finish(COUNTER) == TOLLMEANDER_DONE);
}

/* The oldest ticket is the one that all replies wait for. */
static void the_oldest_is_open(void)
{
    struct back_ticket first, oldest;

    open_both(COUNTER);
    CHECK(!back_transmit_oldest(&transmit, &oldest));
    first = hold_two();
    CHECK(back_transmit_oldest(&transmit, &oldest) && oldest.slot == first.slot);
    CHECK(finish(COUNTER + 1) == TOLLMEANDER_DONE);
    CHECK(back_transmit_oldest(&transmit, &oldest) && oldest.slot == first.slot);
    hold_two();
    CHECK(finish(COUNTER) == TOLLMEANDER_DONE);
    CHECK(back_transmit_oldest(&transmit, &oldest) && oldest.slot == COUNTER + 1);
    CHECK(back_transmit_finish(&transmit, oldest, TOLLMEANDER_REPLY_DROPPED, &report) ==
          TOLLMEANDER_DONE);
    CHECK(!back_transmit_oldest(&transmit, &oldest));
    hold_two();
    back_ring_close(&transmit.ring);
    CHECK(!back_transmit_oldest(&transmit, &oldest));
}

/* The end of a period, as back_ring.h has it; the packets dropped. */
static uint32_t end_period(uint32_t *limit)
{
    struct back_ticket ticket;
    uint32_t dropped = 0;

    for (; back_transmit_oldest(&transmit, &ticket) && (int32_t)(ticket.slot - *limit) < 0;
         dropped++)
        CHECK(back_transmit_finish(&transmit, ticket, TOLLMEANDER_REPLY_DROPPED, &report) ==
              TOLLMEANDER_DONE);
    *limit = transmit.ring.consumed;
    return dropped;
}

/* Packets taken in one period are dropped at the end of the next, and no other, across the wrap. */
static void tickets_have_a_time_limit(void)
{
    uint32_t counter = UINT32_MAX - 3, limit = counter;

    open_both(counter);
    for (uint32_t n = counter; n != counter + 6; n++)
        post_packet(n, GREF, 7);
    back_ring_look(&transmit.ring);
    for (int i = 0; i < 3; i++)
        CHECK(take() == TOLLMEANDER_DONE);
    CHECK(end_period(&limit) == 0);
    for (int i = 0; i < 3; i++)
        CHECK(take() == TOLLMEANDER_DONE);
    CHECK(finish(counter + 1) == TOLLMEANDER_DONE);
    CHECK(end_period(&limit) == 2 && word(RING_RSP_PROD) == counter + 3);
    CHECK(end_period(&limit) == 3 && word(RING_RSP_PROD) == counter + 6);
    CHECK(word(ring_slot(TRANSMIT_SLOT_WORDS, counter)) == (7u | 0xFFFE0000u));
    CHECK(word(ring_slot(TRANSMIT_SLOT_WORDS, counter + 1)) == 7u);
}

/* What to do next, for every answer; a number that is none asks to mend, which goes on nowhere. */
static void every_answer_has_a_next(void)
{
    static const enum back_next next[] = {
        BACK_GO_ON, BACK_MEND, BACK_DISCONNECT, BACK_DISCONNECT, BACK_SLEEP, BACK_DISCONNECT,
        BACK_SLEEP, BACK_GO_ON, BACK_MEND, BACK_MEND, BACK_SLEEP, BACK_MEND, BACK_MEND, BACK_MEND,
        BACK_WAIT_FOR_DEVICE, BACK_MEND, BACK_MEND, BACK_MEND, BACK_MEND
    };

    for (uint32_t answer = 0; answer < sizeof next / sizeof next[0]; answer++)
        CHECK(back_ring_next(answer) == next[answer]);
    CHECK(back_ring_next(UINT32_MAX) == BACK_MEND);
}

/* The loop of back_ring.h with a buffer that is too short: mended once, and nothing is lost. */
static void no_room_is_mended(void)
{
    uint32_t calls = 0, done = 0;
    size_t room = FRAME_SIZE - 1;
    enum back_next next;

    open_both(COUNTER);
    post_packet(COUNTER, GREF, 1);
    post_packet(COUNTER + 1, GREF, 2);
    do {
        done += back_transmit_take(&transmit, &granted, frame, room, &report) == TOLLMEANDER_DONE;
        next = back_ring_next(report.answer);
        if (next == BACK_MEND)
            room = sizeof frame;
        calls++;
    } while (next == BACK_GO_ON || (next == BACK_MEND && calls < 2));
    CHECK(done == 2 && calls == 4 && next == BACK_SLEEP);
}

static void answers_have_names(void)
{
    static const char *const answers[] = {
        "done", "bad page", "halted", "overflow", "empty", "misshapen", "waiting", "spoiled",
        "no room", "bad frame length", "no buffers", "no slots", "bad pages", "bad gso",
        "no record", "bad ticket", "unknown", "bad records", "unknown"
    };
    static const char *const causes[] = {
        "none", "frame too short", "reserved", "sizes above total", "page not granted",
        "part leaves its range", "bad gso", "unknown"
    };

    CHECK(sizeof answers / sizeof answers[0] == TOLLMEANDER_NAMED_ANSWERS + 1);
    CHECK(sizeof causes / sizeof causes[0] == TOLLMEANDER_NAMED_CAUSES + 1);
    for (uint32_t i = 0; i < sizeof answers / sizeof answers[0]; i++)
        CHECK(strcmp(tollmeander_answer_name(i), answers[i]) == 0);
    for (uint32_t i = 0; i < sizeof causes / sizeof causes[0]; i++)
        CHECK(strcmp(tollmeander_cause_name(i), causes[i]) == 0);
    CHECK(strcmp(tollmeander_answer_name(UINT32_MAX), "unknown") == 0);
    CHECK(strcmp(tollmeander_cause_name(UINT32_MAX), "unknown") == 0);
}

int main(void)
{
    nothing_is_published_early();
    calls_use_what_was_copied();
    nobody_sleeps_without_asking();
    replies_leave_together();
    a_waiting_reply_is_not_overwritten();
    a_whole_call_publishes_what_waits();
    a_whole_finish_publishes_what_waits();
    references_are_kept();
    a_put_is_refused_whole();
    a_refusal_is_not_refused_again();
    opening_twice_is_refused();
    records_are_bounded();
    a_fresh_queue_holds_nothing();
    not_open_is_halted();
    bad_tickets_finish_nothing();
    no_packet_has_no_ticket();
    tickets_end_with_their_connection();
    the_oldest_is_open();
    tickets_have_a_time_limit();
    every_answer_has_a_next();
    no_room_is_mended();
    answers_have_names();
    return check_result("steps");
}
