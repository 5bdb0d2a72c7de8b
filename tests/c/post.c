/*
 * tollmeander_transmit_post by its header: each answer is produced by a call and compared with the
 * header's constant; a refused post leaves all that was lent. What is posted comes back by
 * tollmeander_transmit_take: frames of every length, and nothing behind them is written.
 */
#include <stddef.h>
#include <stdint.h>
#include <string.h>

#include "lent.h"

enum { GSO_SIZE = 1460 };

/* A frame of two pages with gso: three slots across the wrap, octet by octet, and nothing else. */
static void check_done(void)
{
    static const uint8_t slots[][TOLLMEANDER_TRANSMIT_SLOT_SIZE] = {
        { WRITE_GREF, 0, 0, 0, 0, 0, MORE_DATA | EXTRA_FOLLOWS, 0, 0xFF, 0xFF, 0x01, 0x10 },
        { 1, 0, 0xB4, 0x05, 2, 0, 0, 0, 0, 0, 0, 0 },
        { OTHER_GREF, 0, 0, 0, 0, 0, 0, 0, 1, 0, 1, 0 }
    };
    static struct lent_copy expected;
    const uint32_t page = TOLLMEANDER_PAGE_SIZE, first = TOLLMEANDER_RING_FIRST_SLOT;

    open_post(UINT32_MAX);
    memset(ring + first, 0xEE, page - first);
    copy_lent(&expected);
    put32(expected.ring + TOLLMEANDER_RING_REQ_PROD, 2);
    memcpy(expected.ring + first + 255 * sizeof slots[0], slots[0], sizeof slots[0]);
    memcpy(expected.ring + first, slots[1], 2 * sizeof slots[0]);
    memcpy(expected.window + page, frame, page + 1);
    REPORTS(POST(2, page + 1, 1, GSO_SIZE, 2), TOLLMEANDER_DONE, 0, 0, 3, 1, 0);
    CHECK(is_lent(&expected));
    memset(frame, UNCOPIED, sizeof frame);
    REPORTS(TAKE(), TOLLMEANDER_DONE, 0, 0, 3, 0, page + 1, 0, 0, GSO_SIZE, 2, UINT32_MAX);
    CHECK(copied(frame, expected.frame, page + 1));
}

/* Every value but 0 asks for gso; with 0 the size and the type are not looked at. */
static void check_gso(void)
{
    static const uint32_t asks[] = { 1, 2, 0x100, 0x10000, UINT32_MAX };

    for (size_t i = 0; i < sizeof asks / sizeof asks[0]; i++) {
        open_post(0);
        REPORTS(POST(1, 60, asks[i], 1, 1), TOLLMEANDER_DONE, 0, 0, 2, 1, 0);
        REPORTS(TAKE(), TOLLMEANDER_DONE, 0, 0, 2, 0, 60, 0, 0, 1, 1);
    }
    open_post(0);
    REPORTS(POST(1, 60, 0, 0, 9), TOLLMEANDER_DONE, 0, 0, 1, 1, 0);
    REPORTS(TAKE(), TOLLMEANDER_DONE, 0, 0, 1, 0, 60);
}

/* Each answer where all that is looked for later is wrong as well. */
static void check_order(void)
{
    const size_t page = TOLLMEANDER_PAGE_SIZE;

    open_post(0);
    replies_read = 1;
    REFUSES(post_frame(page - 1, 0, 0, 1, 0, 0), TOLLMEANDER_BAD_PAGE);
    REFUSES(post_frame(page + 1, 0, 0, 1, 0, 0), TOLLMEANDER_BAD_PAGE);
    REFUSES(post_frame(0, 0, 0, 1, 0, 0), TOLLMEANDER_BAD_PAGE);
    REFUSES(POST(0, 0, 1, 0, 0), TOLLMEANDER_BAD_LENGTH);
    REFUSES(POST(0, TOLLMEANDER_FRAME_MIN - 1, 1, 0, 0), TOLLMEANDER_BAD_LENGTH);
    REFUSES(POST(0, TOLLMEANDER_FRAME_MAX + 1, 1, 0, 0), TOLLMEANDER_BAD_LENGTH);
    REFUSES(POST(0, 60, 1, 0, 1), TOLLMEANDER_BAD_GSO);
    REFUSES(POST(0, 60, 1, 1, 0), TOLLMEANDER_BAD_GSO);
    REFUSES(POST(0, 60, 1, 1, 3), TOLLMEANDER_BAD_GSO);
    REFUSES(POST(0, 60, 1, 1, 1), TOLLMEANDER_BAD_PAGES);
    REFUSES(POST(1, 60, 1, 1, 1), TOLLMEANDER_NO_SLOTS);
    replies_read = 0;
    REPORTS(POST(1, 60, 1, 1, 1), TOLLMEANDER_DONE, 0, 0, 2, 1, 0);
}

/* The second reference must be there, fit for receive, and name another page than the first. */
static void check_pages(void)
{
    static const uint32_t unfit[] = {
        READ_GREF, CLEAR_GREF, OUTER_GREF, GRANTS, UINT32_MAX, WRITE_GREF, RANGE_GREF
    };
    const size_t length = TOLLMEANDER_PAGE_SIZE + 1;

    for (size_t i = 0; i < sizeof unfit / sizeof unfit[0]; i++) {
        open_post(0);
        grant_range(RANGE_GREF, 2, ACCESS, 0, TOLLMEANDER_PAGE_SIZE - 1);
        references[2] = unfit[i];
        REFUSES(POST(2, length, 0, 0, 0), TOLLMEANDER_BAD_PAGES);
        REPORTS(POST(2, length - 1, 0, 0, 0), TOLLMEANDER_DONE, 0, 0, 1, 1, 0);
    }
    open_post(0);
    REFUSES(POST(1, length, 0, 0, 0), TOLLMEANDER_BAD_PAGES);
    grant(RANGE_GREF, 1, ACCESS);
    references[2] = RANGE_GREF;
    REFUSES(POST(2, length, 0, 0, 0), TOLLMEANDER_BAD_PAGES);
    grant(RANGE_GREF, 2, ACCESS);
    REPORTS(POST(2, length, 0, 0, 0), TOLLMEANDER_DONE, 0, 0, 2, 1, 0);
}

/* Free slots are 256 less those posted and not replied to; none where these are above 256. */
static void check_slots(void)
{
    static const uint32_t in_flight[] = { 0, 252, 253, 254, 255, 256, 257, 0x80000000, UINT32_MAX };

    for (size_t i = 0; i < sizeof in_flight / sizeof in_flight[0]; i++) {
        open_post(5);
        replies_read -= in_flight[i];
        if (in_flight[i] > TOLLMEANDER_RING_SLOTS - 3)
            REFUSES(POST(2, TOLLMEANDER_PAGE_SIZE + 1, 1, 1, 1), TOLLMEANDER_NO_SLOTS);
        else
            REPORTS(POST(2, TOLLMEANDER_PAGE_SIZE + 1, 1, 1, 1), TOLLMEANDER_DONE, 0, 0, 3, 1, 0);
    }
}

/* Slots 250 to 252 notify a req_event of 251 to 253. */
static void check_notify(void)
{
    for (uint32_t req_event = 249; req_event < 256; req_event++) {
        open_post(250);
        put32(ring + TOLLMEANDER_RING_REQ_EVENT, req_event);
        REPORTS(POST(2, TOLLMEANDER_PAGE_SIZE + 1, 1, 1, 1), TOLLMEANDER_DONE, 0, 0, 3,
                req_event >= 251 && req_event <= 253, 0);
    }
}

/* A frame of every length that one page or two take is posted and taken. */
static void check_frames(void)
{
    static uint8_t posted[2 * TOLLMEANDER_PAGE_SIZE];
    const uint32_t page = TOLLMEANDER_PAGE_SIZE;

    open_post(0);
    memcpy(posted, frame, sizeof posted);
    for (uint32_t n = TOLLMEANDER_FRAME_MIN; n <= 2 * page; n++) {
        uint32_t slots = n > page ? 2 : 1;

        memset(window, UNCOPIED, sizeof window);
        put32(ring + TOLLMEANDER_RING_REQ_EVENT, consumed + 1);
        put32(ring + TOLLMEANDER_RING_RSP_EVENT, consumed + 1);
        replies_read = consumed;
        memcpy(frame, posted, n);
        REPORTS(POST(2, n, 0, 0, 0), TOLLMEANDER_DONE, 0, 0, slots, 1, 0);
        CHECK(copied(window + page, posted, n));
        memset(frame, UNCOPIED, n + 16);
        REPORTS(TAKE(), TOLLMEANDER_DONE, 0, 0, slots, 0, n, [TICKET] = replied);
        CHECK(copied(frame, posted, n));
        REPORTS(FINISH(replied, TOLLMEANDER_REPLY_OKAY), TOLLMEANDER_DONE, 0, 0, slots, 1);
    }
}

/* The longest frame, with gso, into sixteen pages named from the last to the first. */
static void check_longest(void)
{
    static uint8_t wide[LONGEST_PAGES * TOLLMEANDER_PAGE_SIZE];
    static uint8_t table[LONGEST_PAGES * TOLLMEANDER_GRANT_WORD_SIZE], taken[sizeof frame];
    const uint32_t slots = 1 + LONGEST_PAGES;

    open_post(0);
    memset(taken, UNCOPIED, sizeof taken);
    for (uint32_t i = 0; i < LONGEST_PAGES; i++) {
        put32(table + TOLLMEANDER_GRANT_WORD_SIZE * i, i << TOLLMEANDER_GRANT_PAGE_BIT | ACCESS);
        put16(table + TOLLMEANDER_GRANT_WORD_SIZE * i + TOLLMEANDER_GRANT_LENGTH, 4096);
        references[1 + i] = LONGEST_PAGES - 1 - i;
    }
    spoil_report();
    REPORTS(tollmeander_transmit_post(replies_read, ring, TOLLMEANDER_PAGE_SIZE, table,
                                      sizeof table, wide, sizeof wide, references + 1,
                                      LONGEST_PAGES, frame, TOLLMEANDER_FRAME_MAX, 1, UINT16_MAX,
                                      1, &lent.report), TOLLMEANDER_DONE, 0, 0, slots, 1, 0);
    CHECK(memcmp(wide, frame + 15 * TOLLMEANDER_PAGE_SIZE, TOLLMEANDER_PAGE_SIZE - 1) == 0);
    spoil_report();
    REPORTS(tollmeander_transmit_take(&consumed, &replied, &halted, ring, TOLLMEANDER_PAGE_SIZE,
                                      table, sizeof table, wide, sizeof wide, held, held_len,
                                      taken, TOLLMEANDER_FRAME_MAX, &lent.report),
            TOLLMEANDER_DONE, 0, 0, slots, 0, TOLLMEANDER_FRAME_MAX, 0, 0, UINT16_MAX, 1);
    CHECK(memcmp(taken, frame, TOLLMEANDER_FRAME_MAX) == 0);
    CHECK(taken[TOLLMEANDER_FRAME_MAX] == UNCOPIED);
}

int main(void)
{
    check_done();
    check_gso();
    check_order();
    check_pages();
    check_slots();
    check_notify();
    check_frames();
    check_longest();
    return check_result("post");
}
