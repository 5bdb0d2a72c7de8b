/*
 * tollmeander_receive_put by its header: each answer is produced by a call and compared with the
 * header's constant. Frames of every length are copied whole, and nothing behind them is written.
 */
#include <stddef.h>
#include <stdint.h>
#include <string.h>

#include "lent.h"

static void check_done(void)
{
    uint8_t *first, *second;

    open_queue(UINT32_MAX);
    first = receive_slot(UINT32_MAX);
    second = receive_slot(0);
    post_request(9, WRITE_GREF);
    REPORTS(PUT(4096 + 1), TOLLMEANDER_NO_BUFFERS, 0);
    CHECK(get32(ring + TOLLMEANDER_RING_REQ_EVENT) == 1);
    post_request(10, OTHER_GREF);
    REPORTS(PUT(4096 + 1), TOLLMEANDER_DONE, 0, 0, 2, 1, 4096 + 1, 0);
    CHECK(consumed == 1 && halted == 0);
    CHECK(get32(first) == 9 && get32(first + 4) == (MORE_DATA | 4096u << 16));
    CHECK(get32(second) == 10 && get32(second + 4) == 1u << 16);
    CHECK(memcmp(window + TOLLMEANDER_PAGE_SIZE, frame, TOLLMEANDER_PAGE_SIZE) == 0);
    CHECK(window[2 * TOLLMEANDER_PAGE_SIZE] == frame[TOLLMEANDER_PAGE_SIZE]);
    CHECK(window[2 * TOLLMEANDER_PAGE_SIZE + 1] != frame[TOLLMEANDER_PAGE_SIZE]);
}

static void check_refusals(void)
{
    open_queue(0);
    post_request(9, WRITE_GREF);
    post_request(10, READ_GREF);
    REPORTS(put(TOLLMEANDER_PAGE_SIZE - 1, 60), TOLLMEANDER_BAD_PAGE, 0);
    REPORTS(PUT(TOLLMEANDER_FRAME_MIN - 1), TOLLMEANDER_BAD_LENGTH, 0);
    REPORTS(PUT(TOLLMEANDER_FRAME_MAX + 1), TOLLMEANDER_BAD_LENGTH, 0);
    REPORTS(PUT(0), TOLLMEANDER_BAD_LENGTH, 0);
    REPORTS(PUT(2 * 4096), TOLLMEANDER_SPOILED, TOLLMEANDER_CAUSE_GRANT, 1, 2, 1, 0);
    CHECK(get32(receive_slot(0)) == 9);
    CHECK(get32(receive_slot(0) + 4) == (uint32_t)TOLLMEANDER_REPLY_ERROR << 16);
    CHECK(get32(receive_slot(1)) == 10);
    CHECK(get32(receive_slot(1) + 4) == (uint32_t)TOLLMEANDER_REPLY_ERROR << 16);
    CHECK(window[TOLLMEANDER_PAGE_SIZE] != frame[0]);
    CHECK(consumed == 2 && halted == 0);
}

/* Checks what the mark is after a call on a halted ring, for a value of the mark. */
static void check_mark(uint32_t mark)
{
    open_queue(0);
    post_request(1, WRITE_GREF);
    halted = mark;
    REPORTS(PUT(60), TOLLMEANDER_HALTED, 0);
    CHECK(halted == mark && consumed == 0);
}

static void check_halting(void)
{
    open_queue(0);
    put32(ring + TOLLMEANDER_RING_REQ_PROD, 257);
    REPORTS(PUT(60), TOLLMEANDER_OVERFLOW, 0);
    CHECK(halted == 1 && consumed == 0);
    check_mark(1);
    check_mark(2);
    check_mark(UINT32_MAX);
}

/* Receive wants the whole page: a range of it is not fit, however short the frame is. */
static void check_range(uint32_t start, uint32_t length, bool fit)
{
    open_queue(0);
    grant_range(RANGE_GREF, 1, ACCESS, start, length);
    post_request(9, RANGE_GREF);
    if (fit) {
        REPORTS(PUT(60), TOLLMEANDER_DONE, 0, 0, 1, 1, 60, 0);
    } else {
        REPORTS(PUT(60), TOLLMEANDER_SPOILED, TOLLMEANDER_CAUSE_GRANT, 0, 1, 1, 0);
        CHECK(window[TOLLMEANDER_PAGE_SIZE] != frame[0]);
    }
}

static void check_ranges(void)
{
    const uint32_t page = TOLLMEANDER_PAGE_SIZE;

    check_range(0, page, true);
    check_range(0, page - 1, false);
    check_range(1, page - 1, false);
    check_range(0, page + 1, false);
    check_range(1, page, false);
    check_range(0, 60, false);
    check_range(0, 0, false);
}

/* A frame of every length that one page or two take, into pages that lie side by side. */
static void check_pieces(void)
{
    const uint32_t page = TOLLMEANDER_PAGE_SIZE;

    open_queue(0);
    for (uint32_t i = 0; i < 2 * page; i++)
        frame[i] = (uint8_t)(i * 5 + i / page);
    for (uint32_t n = TOLLMEANDER_FRAME_MIN; n <= 2 * page; n++) {
        uint32_t slots = n > page ? 2 : 1;

        memset(window, UNCOPIED, sizeof window);
        put32(ring + TOLLMEANDER_RING_RSP_EVENT, consumed + 1);
        post_request(1, WRITE_GREF);
        if (slots > 1)
            post_request(2, OTHER_GREF);
        REPORTS(PUT(n), TOLLMEANDER_DONE, 0, 0, slots, 1, n, 0);
        CHECK(copied(window + page, frame, n));
    }
}

int main(void)
{
    check_done();
    check_refusals();
    check_halting();
    check_ranges();
    check_pieces();
    return check_result("put");
}
