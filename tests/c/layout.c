/*
 * Header and library agree: size and order of report and record, the numbers of answers, causes and
 * statuses, the layout of ring page and grants, the parameters of take, finish and post. Buffers
 * may have no length, and byte buffers may stand anywhere.
 */
#include <stddef.h>
#include <stdint.h>
#include <string.h>

#include "lent.h"

#define IN(type, field, offset) \
    _Static_assert(offsetof(struct type, field) == (offset), #field " is misplaced")
#define IS(name, number) _Static_assert((name) == (number), #name " has another number")

_Static_assert(sizeof(struct tollmeander_report) == 44, "a report is eleven words");
_Static_assert(_Alignof(struct tollmeander_report) == 4, "a report is aligned to 4");
IN(tollmeander_report, answer, 0);
IN(tollmeander_report, cause, 4);
IN(tollmeander_report, place, 8);
IN(tollmeander_report, slots, 12);
IN(tollmeander_report, notify, 16);
IN(tollmeander_report, total, 20);
IN(tollmeander_report, checksum_blank, 24);
IN(tollmeander_report, data_validated, 28);
IN(tollmeander_report, gso_size, 32);
IN(tollmeander_report, gso_type, 36);
IN(tollmeander_report, ticket, 40);
IS(TOLLMEANDER_REPORT_WORDS, 11);
IS(TICKET, offsetof(struct tollmeander_report, ticket) / sizeof(uint32_t));

_Static_assert(sizeof(struct tollmeander_held) == 20, "a record is five words");
_Static_assert(_Alignof(struct tollmeander_held) == 4, "a record is aligned to 4");
IN(tollmeander_held, ticket, 0);
IN(tollmeander_held, slots, 4);
IN(tollmeander_held, extras, 8);
IN(tollmeander_held, status, 12);
IN(tollmeander_held, finished, 16);
IS(TOLLMEANDER_HELD_MAX, 256);

IS(TOLLMEANDER_DONE, 0);
IS(TOLLMEANDER_BAD_PAGE, 1);
IS(TOLLMEANDER_HALTED, 2);
IS(TOLLMEANDER_OVERFLOW, 3);
IS(TOLLMEANDER_EMPTY, 4);
IS(TOLLMEANDER_MISSHAPEN, 5);
IS(TOLLMEANDER_WAITING, 6);
IS(TOLLMEANDER_SPOILED, 7);
IS(TOLLMEANDER_NO_ROOM, 8);
IS(TOLLMEANDER_BAD_LENGTH, 9);
IS(TOLLMEANDER_NO_BUFFERS, 10);
IS(TOLLMEANDER_NO_SLOTS, 11);
IS(TOLLMEANDER_BAD_PAGES, 12);
IS(TOLLMEANDER_BAD_GSO, 13);
IS(TOLLMEANDER_NO_RECORD, 14);
IS(TOLLMEANDER_BAD_TICKET, 15);
IS(TOLLMEANDER_BAD_RECORDS, 17);

IS(TOLLMEANDER_CAUSE_SHORT, 1);
IS(TOLLMEANDER_CAUSE_LONG, 2);
IS(TOLLMEANDER_CAUSE_SIZES, 3);
IS(TOLLMEANDER_CAUSE_GRANT, 4);
IS(TOLLMEANDER_CAUSE_OFFSET, 5);
IS(TOLLMEANDER_CAUSE_GSO, 6);

IS(TOLLMEANDER_REPLY_OKAY, 0);
IS(TOLLMEANDER_REPLY_ERROR, -1);
IS(TOLLMEANDER_REPLY_DROPPED, -2);
IS(TOLLMEANDER_REPLY_NULL, 1);

IS(TOLLMEANDER_PAGE_SIZE, 4096);
IS(TOLLMEANDER_RING_SLOTS, 256);
IS(TOLLMEANDER_RING_REQ_PROD, 0);
IS(TOLLMEANDER_RING_REQ_EVENT, 4);
IS(TOLLMEANDER_RING_RSP_PROD, 8);
IS(TOLLMEANDER_RING_RSP_EVENT, 12);
IS(TOLLMEANDER_RING_FIRST_SLOT, 64);
IS(TOLLMEANDER_TRANSMIT_SLOT_SIZE, 12);
IS(TOLLMEANDER_RECEIVE_SLOT_SIZE, 8);
IS(TOLLMEANDER_PACKET_DATA_MAX, 18);
IS(TOLLMEANDER_PACKET_EXTRAS_MAX, 4);
IS(TOLLMEANDER_PACKET_SLOTS_MAX, TOLLMEANDER_PACKET_DATA_MAX + TOLLMEANDER_PACKET_EXTRAS_MAX);
IS(TOLLMEANDER_FRAME_MIN, 14);
IS(TOLLMEANDER_FRAME_MAX, 65535);
IS(TOLLMEANDER_GRANT_WORD_SIZE, 8);
IS(TOLLMEANDER_GRANTED, 1);
IS(TOLLMEANDER_GRANT_WRITABLE, 2);
IS(TOLLMEANDER_GRANT_PAGE_BIT, 2);
IS(TOLLMEANDER_GRANT_START, 4);
IS(TOLLMEANDER_GRANT_LENGTH, 6);

/* Parameters, as the header declares them. */
static uint32_t (*const declared_take)(uint32_t *, uint32_t *, uint32_t *, uint8_t *, size_t,
                                       const uint8_t *, size_t, const uint8_t *, size_t,
                                       struct tollmeander_held *, size_t, uint8_t *, size_t,
                                       struct tollmeander_report *) = tollmeander_transmit_take;
static uint32_t (*const declared_finish)(uint32_t, uint32_t *, uint8_t *, size_t,
                                         struct tollmeander_held *, size_t, uint32_t, int32_t,
                                         struct tollmeander_report *) = tollmeander_transmit_finish;
static uint32_t (*const declared_post)(uint32_t, uint8_t *, size_t, const uint8_t *, size_t,
                                       uint8_t *, size_t, const uint32_t *, size_t,
                                       const uint8_t *, size_t, uint32_t, uint16_t, uint8_t,
                                       struct tollmeander_report *) = tollmeander_transmit_post;

/* Buffers of no length: their pointers are not null, and nothing is read or written there. */
static void check_empty_buffers(void)
{
    open_post(0);
    spoil_report();
    REPORTS(declared_post(0, ring, TOLLMEANDER_PAGE_SIZE, grants, 0, window, 0, references + 1, 1,
                          frame, 60, 0, 0, 0, &lent.report), TOLLMEANDER_BAD_PAGES, 0);
    spoil_report();
    REPORTS(declared_post(0, ring, TOLLMEANDER_PAGE_SIZE, grants, 0, window, 0, references + 1, 0,
                          frame, 0, 0, 0, 0, &lent.report), TOLLMEANDER_BAD_LENGTH, 0);
    open_queue(0);
    post_data(READ_GREF, 0, 0, 1, 60);
    spoil_report();
    REPORTS(declared_take(&consumed, &replied, &halted, ring, TOLLMEANDER_PAGE_SIZE, grants, 0,
                          window, 0, held, 0, frame, 0, &lent.report), TOLLMEANDER_NO_RECORD, 0);
    spoil_report();
    REPORTS(declared_finish(consumed, &replied, ring, TOLLMEANDER_PAGE_SIZE, held, 0, 0, 0,
                            &lent.report), TOLLMEANDER_BAD_TICKET, 0);
    spoil_report();
    REPORTS(declared_take(&consumed, &replied, &halted, ring, TOLLMEANDER_PAGE_SIZE, grants, 0,
                          window, 0, held, 1, frame, 0, &lent.report),
            TOLLMEANDER_SPOILED, TOLLMEANDER_CAUSE_GRANT, 0, 1, 1, 0);
}

/* Byte buffers may stand at odd addresses. */
static void check_odd_addresses(void)
{
    static uint8_t odd_ring[TOLLMEANDER_PAGE_SIZE + 1], odd_grants[sizeof grants + 1];
    static uint8_t odd_window[sizeof window + 1];

    open_queue(0);
    post_data(READ_GREF, 1, 0, 1, 60);
    memcpy(odd_ring + 1, ring, TOLLMEANDER_PAGE_SIZE);
    memcpy(odd_grants + 1, grants, sizeof grants);
    memcpy(odd_window + 1, window, sizeof window);
    spoil_report();
    REPORTS(declared_take(&consumed, &replied, &halted, odd_ring + 1, TOLLMEANDER_PAGE_SIZE,
                          odd_grants + 1, sizeof grants, odd_window + 1, sizeof window, held + 1, 1,
                          frame + 1, 60, &lent.report), TOLLMEANDER_DONE, 0, 0, 1, 0, 60);
    CHECK(memcmp(frame + 1, window + 3 * TOLLMEANDER_PAGE_SIZE + 1, 60) == 0);
    spoil_report();
    REPORTS(declared_finish(consumed, &replied, odd_ring + 1, TOLLMEANDER_PAGE_SIZE, held + 1, 1, 0,
                            TOLLMEANDER_REPLY_OKAY, &lent.report), TOLLMEANDER_DONE, 0, 0, 1, 1);
    references[1] = WRITE_GREF;
    spoil_report();
    REPORTS(declared_post(1, odd_ring + 1, TOLLMEANDER_PAGE_SIZE, odd_grants + 1, sizeof grants,
                          odd_window + 1, sizeof window, references + 1, 1, frame + 1, 60, 0, 0, 0,
                          &lent.report), TOLLMEANDER_DONE, 0, 0, 1, 0, 0);
    CHECK(memcmp(odd_window + 1 + TOLLMEANDER_PAGE_SIZE, frame + 1, 60) == 0);
}

int main(void)
{
    check_empty_buffers();
    check_odd_addresses();
    return check_result("layout");
}
