/*
 * tollmeander_transmit_take by its header: each answer, and each cause but the reserved one, is
 * produced by a call and compared with the header's constant. (finish.c has the lists of records
 * that are refused.) Parts of every length are copied whole, and nothing behind them is written.
 */
#include <stddef.h>
#include <stdint.h>
#include <string.h>

#include "lent.h"

/* Done with every word of the report set, one value each. The packet is held, not replied to. */
static void check_done(void)
{
    static uint8_t before[sizeof ring];

    open_queue(UINT32_MAX);
    post_data(READ_GREF, 100, CHECKSUM_BLANK | MORE_DATA | EXTRA_FOLLOWS, 7, 1500);
    post_extra(1, 0, 1460, 2);
    post_data(WRITE_GREF, 9, 0, 8, 300);
    memcpy(before, ring, sizeof ring);
    REPORTS(TAKE(), TOLLMEANDER_DONE, 0, 0, 3, 0, 1500, 1, 0, 1460, 2, UINT32_MAX);
    CHECK(consumed == 2 && replied == UINT32_MAX && halted == 0);
    CHECK(memcmp(before, ring, sizeof ring) == 0);
    CHECK(holds(0, UINT32_MAX, 3, 1, TOLLMEANDER_REPLY_OKAY, 0) && is_zeroed(1));
    CHECK(memcmp(frame, window + 3 * TOLLMEANDER_PAGE_SIZE + 100, 1200) == 0);
    CHECK(memcmp(frame + 1200, window + 1 * TOLLMEANDER_PAGE_SIZE + 9, 300) == 0);
    CHECK(frame[1500] == UNCOPIED);
    post_data(READ_GREF, 0, DATA_VALIDATED, 9, TOLLMEANDER_FRAME_MIN);
    REPORTS(TAKE(), TOLLMEANDER_DONE, 0, 0, 1, 0, TOLLMEANDER_FRAME_MIN, 0, 1, 0, 0, 2);
    CHECK(holds(1, 2, 1, 0, TOLLMEANDER_REPLY_OKAY, 0) && is_zeroed(2));
}

static void check_refusals(void)
{
    open_queue(5);
    post_data(READ_GREF, 0, 0, 1, 60);
    REFUSES(take(TOLLMEANDER_PAGE_SIZE - 1, 60), TOLLMEANDER_BAD_PAGE);
    REFUSES(take(TOLLMEANDER_PAGE_SIZE + 1, 60), TOLLMEANDER_BAD_PAGE);
    REFUSES(take(0, 0), TOLLMEANDER_BAD_PAGE);
    REFUSES(take(TOLLMEANDER_PAGE_SIZE, 59), TOLLMEANDER_NO_ROOM);
    REPORTS(take(TOLLMEANDER_PAGE_SIZE, 60), TOLLMEANDER_DONE, 0, 0, 1, 0, 60, [TICKET] = 5);
    REPORTS(TAKE(), TOLLMEANDER_EMPTY, 0);
    CHECK(get32(ring + TOLLMEANDER_RING_REQ_EVENT) == 7);
    post_data(READ_GREF, 0, MORE_DATA, 1, 60);
    REPORTS(TAKE(), TOLLMEANDER_WAITING, 0);
    CHECK(get32(ring + TOLLMEANDER_RING_REQ_EVENT) == 8);
    CHECK(consumed == 6 && halted == 0);
}

/* A whole packet of 60 octets stands ready: good without room, good, spoiled. */
static void refuse_whole(void)
{
    REFUSES(take(TOLLMEANDER_PAGE_SIZE, 59), TOLLMEANDER_NO_ROOM);
    REFUSES(take(TOLLMEANDER_PAGE_SIZE, 60), TOLLMEANDER_NO_RECORD);
    put32(transmit_slot(consumed), CLEAR_GREF);
    REFUSES(take(TOLLMEANDER_PAGE_SIZE, 0), TOLLMEANDER_NO_RECORD);
    put32(transmit_slot(consumed), READ_GREF);
}

/* So many records are all in use: a whole packet is refused, all else is answered as ever. */
static void check_no_record(size_t records)
{
    open_queue(5);
    lend_records(records);
    for (uint32_t i = 0; i < records; i++) {
        post_data(READ_GREF, 0, 0, i, 60);
        REPORTS(TAKE(), TOLLMEANDER_DONE, 0, 0, 1, 0, 60, [TICKET] = 5 + i);
    }
    REPORTS(TAKE(), TOLLMEANDER_EMPTY, 0);
    post_data(READ_GREF, 0, 0, 1, 60);
    refuse_whole();
    put16(transmit_slot(consumed) + 6, MORE_DATA);
    REPORTS(TAKE(), TOLLMEANDER_WAITING, 0);
    post_data(READ_GREF, 0, 0, 2, 10);
    refuse_whole();
    put16(transmit_slot(consumed) + 6, EXTRA_FOLLOWS);
    REPORTS(TAKE(), TOLLMEANDER_MISSHAPEN, 0);
}

/* The first free record is taken, whatever stands in it but slots. */
static void check_first_free(void)
{
    open_queue(0);
    for (uint32_t i = 0; i < 3; i++)
        post_data(READ_GREF, 0, 0, i, 60);
    held[0] = (struct tollmeander_held){ 0, 1, 0, TOLLMEANDER_REPLY_OKAY, 0 };
    held[1] = (struct tollmeander_held){ 77, 0, 99, 5, 9 };
    held[2] = (struct tollmeander_held){ 1, 1, 0, TOLLMEANDER_REPLY_OKAY, 0 };
    consumed = 2;
    REPORTS(TAKE(), TOLLMEANDER_DONE, 0, 0, 1, 0, 60, [TICKET] = 2);
    CHECK(holds(0, 0, 1, 0, 0, 0) && holds(1, 2, 1, 0, 0, 0) && holds(2, 1, 1, 0, 0, 0));
    CHECK(is_zeroed(3));
}

/* Checks what the mark is after a call on a halted ring, for a value of the mark. */
static void check_mark(uint32_t mark)
{
    open_queue(0);
    post_data(READ_GREF, 0, 0, 1, 60);
    halted = mark;
    REPORTS(TAKE(), TOLLMEANDER_HALTED, 0);
    CHECK(halted == mark && consumed == 0);
}

/* So many slots are posted since the last reply, with packets of one slot held. */
static void check_overflow(uint32_t packets, uint32_t unanswered, bool overflows)
{
    const uint32_t first = UINT32_MAX;

    open_queue(first);
    for (uint32_t i = 0; i < packets; i++) {
        post_data(READ_GREF, 0, 0, i, 60);
        REPORTS(TAKE(), TOLLMEANDER_DONE, 0, 0, 1, 0, 60, [TICKET] = first + i);
    }
    put32(ring + TOLLMEANDER_RING_REQ_PROD, first + unanswered);
    if (overflows) {
        REPORTS(TAKE(), TOLLMEANDER_OVERFLOW, 0);
        CHECK(halted == 1 && consumed == first + packets && replied == first);
    } else {
        CHECK(TAKE() != TOLLMEANDER_OVERFLOW && halted == 0);
    }
}

static void check_halting(void)
{
    check_overflow(0, 257, true);
    check_overflow(0, 256, false);
    check_overflow(0, UINT32_MAX, true);
    check_overflow(2, 257, true);
    check_overflow(2, 256, false);
    check_overflow(2, 2, false);
    check_overflow(2, 1, true);
    check_overflow(2, 0, true);
    open_queue(0);
    post_data(READ_GREF, 0, EXTRA_FOLLOWS, 1, 60);
    post_extra(2, 0, 1460, 1);
    REPORTS(TAKE(), TOLLMEANDER_MISSHAPEN, 0);
    CHECK(halted == 1 && consumed == 0);
    check_mark(1);
    check_mark(2);
    check_mark(UINT32_MAX);
}

/*
 * A packet of two data slots with an extra between them, spoiled for a cause at a place. Nothing
 * else is held: it leaves at once, and the first free record is zeroed.
 */
static void check_cause(uint32_t total, uint32_t offset, uint32_t gref, uint32_t gso_size,
                        uint32_t cause, uint32_t place)
{
    open_queue(10);
    held[0] = (struct tollmeander_held){ 77, 0, 99, 5, 9 };
    post_data(READ_GREF, 0, MORE_DATA | EXTRA_FOLLOWS, 21, total);
    post_extra(1, 0, gso_size, 1);
    post_data(gref, offset, 0, 22, 100);
    REPORTS(TAKE(), TOLLMEANDER_SPOILED, cause, place, 3, 1, 0);
    CHECK(consumed == 13 && replied == 13 && halted == 0);
    CHECK(get32(ring + TOLLMEANDER_RING_RSP_PROD) == 13);
    CHECK(is_reply(10, 21, TOLLMEANDER_REPLY_ERROR) && is_extra_reply(11));
    CHECK(is_reply(12, 22, TOLLMEANDER_REPLY_ERROR));
    CHECK(is_zeroed(0) && frame[0] == UNCOPIED);
}

/* Behind a held packet a spoiled one is held too, finished with an error; no reply leaves. */
static void check_spoiled_behind(void)
{
    static uint8_t before[sizeof ring];

    open_queue(10);
    post_data(READ_GREF, 0, 0, 20, 60);
    REPORTS(TAKE(), TOLLMEANDER_DONE, 0, 0, 1, 0, 60, [TICKET] = 10);
    post_data(READ_GREF, 0, MORE_DATA | EXTRA_FOLLOWS, 21, 200);
    post_extra(1, 0, 0, 1);
    post_data(READ_GREF, 0, 0, 22, 100);
    memcpy(before, ring, sizeof ring);
    memset(frame, UNCOPIED, sizeof frame);
    REPORTS(TAKE(), TOLLMEANDER_SPOILED, TOLLMEANDER_CAUSE_GSO, 1, 3, 0, 0);
    CHECK(consumed == 14 && replied == 10 && halted == 0);
    CHECK(memcmp(before, ring, sizeof ring) == 0 && frame[0] == UNCOPIED);
    CHECK(holds(0, 10, 1, 0, TOLLMEANDER_REPLY_OKAY, 0));
    CHECK(holds(1, 11, 3, 1, TOLLMEANDER_REPLY_ERROR, 1) && is_zeroed(2));
}

/* Slots 250 to 252 are replied to at once; rsp_event of 251 to 253 notify. */
static void check_notify(void)
{
    for (uint32_t rsp_event = 249; rsp_event < 256; rsp_event++) {
        open_queue(250);
        put32(ring + TOLLMEANDER_RING_RSP_EVENT, rsp_event);
        post_data(READ_GREF, 0, MORE_DATA, 1, 13);
        post_data(READ_GREF, 0, MORE_DATA, 2, 0);
        post_data(READ_GREF, 0, 0, 3, 0);
        REPORTS(TAKE(), TOLLMEANDER_SPOILED, TOLLMEANDER_CAUSE_SHORT, 0, 3,
                rsp_event >= 251 && rsp_event <= 253, 0);
    }
}

static void check_causes(void)
{
    check_cause(TOLLMEANDER_FRAME_MIN - 1, 0, READ_GREF, 1460, TOLLMEANDER_CAUSE_SHORT, 0);
    check_cause(99, 0, READ_GREF, 1460, TOLLMEANDER_CAUSE_SIZES, 0);
    check_cause(200, 0, CLEAR_GREF, 1460, TOLLMEANDER_CAUSE_GRANT, 2);
    check_cause(200, 0, OUTER_GREF, 1460, TOLLMEANDER_CAUSE_GRANT, 2);
    check_cause(200, 0, GRANTS, 1460, TOLLMEANDER_CAUSE_GRANT, 2);
    check_cause(200, 3997, READ_GREF, 1460, TOLLMEANDER_CAUSE_OFFSET, 2);
    check_cause(200, 3996, READ_GREF, 0, TOLLMEANDER_CAUSE_GSO, 1);
}

/* Posts as many slots of each kind as the header says; the last of each kind has these flags. */
static void post_longest(uint8_t extra_flags, uint32_t data_flags)
{
    const uint32_t extras = TOLLMEANDER_PACKET_EXTRAS_MAX;
    const uint32_t datas = TOLLMEANDER_PACKET_DATA_MAX;

    open_queue(0);
    post_data(READ_GREF, 0, MORE_DATA | EXTRA_FOLLOWS, 1, 60 * datas);
    for (uint32_t i = 1; i <= extras; i++)
        post_extra(1, i < extras ? EXTRA_MORE : extra_flags, 1460, 1);
    for (uint32_t i = 2; i <= datas; i++)
        post_data(READ_GREF, 0, i < datas ? MORE_DATA : data_flags, i, 60);
}

/* They make a packet; where one of either kind more is promised, they are misshapen. */
static void check_packet_slots(void)
{
    const uint32_t total = 60 * TOLLMEANDER_PACKET_DATA_MAX;

    post_longest(0, 0);
    REPORTS(TAKE(), TOLLMEANDER_DONE, 0, 0, TOLLMEANDER_PACKET_SLOTS_MAX, 0, total, 0, 0, 1460, 1);
    CHECK(holds(0, 0, TOLLMEANDER_PACKET_SLOTS_MAX, TOLLMEANDER_PACKET_EXTRAS_MAX, 0, 0));
    post_longest(EXTRA_MORE, 0);
    REPORTS(TAKE(), TOLLMEANDER_MISSHAPEN, 0);
    post_longest(0, MORE_DATA);
    REPORTS(TAKE(), TOLLMEANDER_MISSHAPEN, 0);
}

/* Checks the report on the slots just posted: short if the total is, else as it is told. */
static void check_sizes(uint32_t total, uint32_t slots, uint32_t cause)
{
    uint32_t first = consumed;

    put32(ring + TOLLMEANDER_RING_RSP_EVENT, first + 1);
    if (total < TOLLMEANDER_FRAME_MIN) {
        REPORTS(TAKE(), TOLLMEANDER_SPOILED, TOLLMEANDER_CAUSE_SHORT, 0, slots, 1, 0);
    } else if (cause != 0) {
        REPORTS(TAKE(), TOLLMEANDER_SPOILED, cause, 0, slots, 1, 0);
    } else {
        REPORTS(TAKE(), TOLLMEANDER_DONE, 0, 0, slots, 0, total, [TICKET] = first);
        REPORTS(FINISH(first, TOLLMEANDER_REPLY_OKAY), TOLLMEANDER_DONE, 0, 0, slots, 1, 0);
    }
}

/*
 * Every total that a slot can hold: with later slots that leave the first at most a page, alone,
 * and with later sizes of one more than it. No call reports the reserved cause.
 */
static void check_totals(void)
{
    const uint32_t page = TOLLMEANDER_PAGE_SIZE;

    open_queue(0);
    for (uint32_t total = 0; total <= UINT16_MAX; total++) {
        uint32_t later = total > 0 ? (total - 1) / page : 0;

        post_data(READ_GREF, 0, later > 0 ? MORE_DATA : 0, 1, total);
        for (uint32_t i = 1; i <= later; i++)
            post_data(WRITE_GREF, 0, i < later ? MORE_DATA : 0, 2, page);
        check_sizes(total, 1 + later, 0);
        post_data(READ_GREF, 0, 0, 1, total);
        check_sizes(total, 1, total > page ? TOLLMEANDER_CAUSE_OFFSET : 0);
        post_data(READ_GREF, 0, MORE_DATA, 1, total);
        post_data(WRITE_GREF, 0, MORE_DATA, 2, 1);
        post_data(WRITE_GREF, 0, 0, 3, total);
        check_sizes(total, 3, TOLLMEANDER_CAUSE_SIZES);
    }
}

/* A part of every length, at the end of its page: behind another part, and alone. */
static void check_parts(void)
{
    const uint32_t page = TOLLMEANDER_PAGE_SIZE, least = TOLLMEANDER_FRAME_MIN;

    open_queue(0);
    for (uint32_t n = 0; n <= page; n++) {
        memset(frame, UNCOPIED, sizeof frame);
        post_data(READ_GREF, 3, MORE_DATA, 1, least + n);
        post_data(WRITE_GREF, page - n, 0, 2, n);
        check_sizes(least + n, 2, 0);
        CHECK(memcmp(frame, window + 3 * page + 3, least) == 0);
        CHECK(copied(frame + least, window + 2 * page - n, n));
        if (n < least)
            continue;
        memset(frame, UNCOPIED, sizeof frame);
        post_data(WRITE_GREF, page - n, 0, 3, n);
        check_sizes(n, 1, 0);
        CHECK(copied(frame, window + 2 * page - n, n));
    }
}

/*
 * Checks a packet of two slots whose second takes a part of page 1 by a grant of a range: done, or
 * spoiled for a cause of that slot.
 */
static void check_range(uint32_t start, uint32_t length, uint32_t offset, uint32_t part,
                        uint32_t cause)
{
    const uint32_t least = TOLLMEANDER_FRAME_MIN;

    open_queue(0);
    grant_range(RANGE_GREF, 1, TOLLMEANDER_GRANTED, start, length);
    post_data(READ_GREF, 0, MORE_DATA, 1, least + part);
    post_data(RANGE_GREF, offset, 0, 2, part);
    if (cause != 0) {
        REPORTS(TAKE(), TOLLMEANDER_SPOILED, cause, 1, 2, 1, 0);
        return;
    }
    REPORTS(TAKE(), TOLLMEANDER_DONE, 0, 0, 2, 0, least + part, 0);
    CHECK(copied(frame + least, window + TOLLMEANDER_PAGE_SIZE + offset, part));
}

/* The ends of a range, and the octets beside them; ranges of no octet, and to the page's end. */
static void check_ranges(void)
{
    const uint32_t page = TOLLMEANDER_PAGE_SIZE;
    const uint32_t outside = TOLLMEANDER_CAUSE_OFFSET, unfit = TOLLMEANDER_CAUSE_GRANT;

    check_range(100, 60, 100, 60, 0);
    check_range(100, 60, 99, 60, outside);
    check_range(100, 60, 99, 1, outside);
    check_range(100, 60, 100, 61, outside);
    check_range(100, 60, 159, 1, 0);
    check_range(100, 60, 160, 1, outside);
    check_range(100, 60, 160, 0, 0);
    check_range(100, 60, 161, 0, outside);
    check_range(100, 60, 99, 0, outside);
    check_range(100, 60, 0, 60, outside);
    check_range(100, 0, 100, 0, 0);
    check_range(100, 0, 99, 0, outside);
    check_range(100, 0, 101, 0, outside);
    check_range(0, 0, 0, 1, outside);
    check_range(1, page - 1, 1, page - 1, 0);
    check_range(1, page, 1, 1, unfit);
    check_range(0, page + 1, 0, 1, unfit);
    check_range(page, 0, page, 0, 0);
    check_range(page, 1, page, 0, unfit);
    check_range(page + 1, 0, page + 1, 0, unfit);
    check_range(UINT16_MAX, 1, 0, 0, unfit);
    check_range(UINT16_MAX, UINT16_MAX, UINT16_MAX, 0, unfit);
}

/* A word whose last octet is not in the table is none. */
static void check_last_word(void)
{
    const size_t whole = TOLLMEANDER_GRANT_WORD_SIZE * (WRITE_GREF + 1);

    for (size_t missing = 0; missing <= TOLLMEANDER_GRANT_WORD_SIZE; missing++) {
        uint32_t answer;

        open_queue(0);
        post_data(WRITE_GREF, 0, 0, 1, 60);
        spoil_report();
        answer = tollmeander_transmit_take(&consumed, &replied, &halted, ring,
                                           TOLLMEANDER_PAGE_SIZE, grants, whole - missing, window,
                                           sizeof window, held, held_len, frame, sizeof frame,
                                           &lent.report);
        if (missing == 0)
            REPORTS(answer, TOLLMEANDER_DONE, 0, 0, 1, 0, 60, 0);
        else
            REPORTS(answer, TOLLMEANDER_SPOILED, TOLLMEANDER_CAUSE_GRANT, 0, 1, 1, 0);
    }
}

int main(void)
{
    check_done();
    check_refusals();
    check_no_record(0);
    check_no_record(1);
    check_no_record(RECORDS);
    check_no_record(200);
    check_first_free();
    check_halting();
    check_causes();
    check_spoiled_behind();
    check_notify();
    check_packet_slots();
    check_totals();
    check_parts();
    check_ranges();
    check_last_word();
    return check_result("take");
}
