/*
 * What the tests of the four calls lend, and the guest's hand in it: a queue on a ring page, grants
 * of every kind, a window, a list of records, a frame buffer, and a report between two words that
 * must not be written.
 */
#ifndef LENT_H
#define LENT_H

#include <stdbool.h>
#include <stddef.h>
#include <stdint.h>

#include "check.h"
#include "octets.h"
#include "slot_bits.h"
#include "tollmeander.h"

enum {
    UNCOPIED = 0xEE,        /* an octet of a buffer that is copied to */
    PAGES = 4,
    READ_GREF = 3,          /* page 3, to be read only */
    WRITE_GREF = 4,         /* page 1, writable */
    OTHER_GREF = 5,         /* page 2, writable */
    CLEAR_GREF = 6,         /* a word that does not grant */
    OUTER_GREF = 7,         /* page 4, which is not in the window */
    RANGE_GREF = 8,         /* a range of a page, set by each check */
    GRANTS = 9,
    ACCESS = TOLLMEANDER_GRANTED | TOLLMEANDER_GRANT_WRITABLE,
    LONGEST_PAGES = 16,     /* of a frame */
    RECORDS = 4,            /* lent, where a check does not say otherwise */
    MOST_RECORDS = TOLLMEANDER_HELD_MAX + 1,
    TICKET = 10             /* the report's word of that name */
};

struct lent_report {
    uint32_t before;
    struct tollmeander_report report;
    uint32_t after;
};

extern uint32_t consumed, replied, halted;
extern uint8_t ring[TOLLMEANDER_PAGE_SIZE + 1];
extern uint8_t grants[GRANTS * TOLLMEANDER_GRANT_WORD_SIZE];
extern uint8_t window[PAGES * TOLLMEANDER_PAGE_SIZE];
extern uint8_t frame[TOLLMEANDER_FRAME_MAX + 1];
extern struct lent_report lent;

/* The list of records, and how many of them are lent. */
extern struct tollmeander_held held[MOST_RECORDS];
extern size_t held_len;

/* What post is lent besides: the replies read, and references, of which the first is not lent. */
extern uint32_t replies_read;
extern uint32_t references[1 + LONGEST_PAGES];

/* A fresh queue at a counter, with all four kinds of grant to whole pages and RECORDS records. */
void open_queue(uint32_t counter);

/* The same for post, with all replies read, a frame, and two references fit for it. */
void open_post(uint32_t counter);

/* Lends so many records, all free; those behind them are not as records must be. */
void lend_records(size_t count);

/* Grants a page, or length octets of it from octet start on, with these bits. */
void grant(uint32_t gref, uint32_t page, uint32_t bits);
void grant_range(uint32_t gref, uint32_t page, uint32_t bits, uint32_t start, uint32_t length);

/* The slots of the ring page with counter n. */
uint8_t *transmit_slot(uint32_t n);
uint8_t *receive_slot(uint32_t n);

/* Each posts the next slot: its place on the ring is req_prod, which goes up by one. */
void post_data(uint32_t gref, uint32_t offset, uint32_t flags, uint32_t id, uint32_t size);
void post_extra(uint8_t type, uint8_t flags, uint32_t gso_size, uint8_t gso_type);
void post_request(uint32_t id, uint32_t gref);

/* The calls on what is lent. */
uint32_t take(size_t ring_len, size_t frame_len);
uint32_t finish(size_t ring_len, uint32_t ticket, int32_t status);
uint32_t put(size_t ring_len, size_t frame_len);
uint32_t post_frame(size_t ring_len, size_t count, size_t frame_len, uint32_t gso,
                    uint16_t gso_size, uint8_t gso_type);

/* The same where the lengths of ring page and frame buffer are the common ones. */
#define TAKE() take(TOLLMEANDER_PAGE_SIZE, TOLLMEANDER_FRAME_MAX)
#define FINISH(ticket, status) finish(TOLLMEANDER_PAGE_SIZE, (ticket), (status))
#define PUT(length) put(TOLLMEANDER_PAGE_SIZE, (length))
#define POST(count, length, ...) post_frame(TOLLMEANDER_PAGE_SIZE, (count), (length), __VA_ARGS__)

/* Writes over the report and the words beside it. The calls above do so first. */
void spoil_report(void);

/* Whether the report is exactly these words, in this order, and the call returned the first. */
bool reported(uint32_t returned, const uint32_t *words);

/* Checks a call's report: its answer, and other words where they are given. */
#define REPORTS(call, ...) \
    CHECK(reported((call), (const uint32_t[TOLLMEANDER_REPORT_WORDS]){ __VA_ARGS__ }))

/* All that is lent, but the report, as one copy. */
struct lent_copy {
    uint8_t ring[sizeof ring], grants[sizeof grants], window[sizeof window], frame[sizeof frame];
    uint32_t references[1 + LONGEST_PAGES];
    struct tollmeander_held held[MOST_RECORDS];
    uint32_t consumed, replied, halted;
};

void copy_lent(struct lent_copy *copy);
bool is_lent(const struct lent_copy *expected);

/* Checks that a refused call reports its answer alone and leaves all that was lent. */
#define REFUSES(call, answer) \
    do { \
        static struct lent_copy before; \
        copy_lent(&before); \
        REPORTS(call, answer, 0); \
        CHECK(is_lent(&before)); \
    } while (0)

/* Whether a record is exactly these five words. */
bool holds(size_t record, uint32_t ticket, uint32_t slots, uint32_t extras, int32_t status,
           uint32_t finished);
bool is_zeroed(size_t record);

/* Whether the reply to slot n is this: of a data slot, and of an extra. */
bool is_reply(uint32_t n, uint32_t id, int32_t status);
bool is_extra_reply(uint32_t n);

/* Whether bytes are copied from a place to another, and the sixteen behind them are not written. */
bool copied(const uint8_t *to, const uint8_t *from, uint32_t n);

#endif
