#include "lent.h"

#include <string.h>

enum { UNWRITTEN = 0x5A5A5A5A };

uint32_t consumed, replied, halted, replies_read;
uint8_t ring[TOLLMEANDER_PAGE_SIZE + 1];
uint8_t grants[GRANTS * TOLLMEANDER_GRANT_WORD_SIZE];
uint8_t window[PAGES * TOLLMEANDER_PAGE_SIZE];
uint8_t frame[TOLLMEANDER_FRAME_MAX + 1];
uint32_t references[1 + LONGEST_PAGES];
struct lent_report lent;
struct tollmeander_held held[MOST_RECORDS];
size_t held_len;

void grant_range(uint32_t gref, uint32_t page, uint32_t bits, uint32_t start, uint32_t length)
{
    uint8_t *word = grants + TOLLMEANDER_GRANT_WORD_SIZE * gref;

    put32(word, page << TOLLMEANDER_GRANT_PAGE_BIT | bits);
    put16(word + TOLLMEANDER_GRANT_START, start);
    put16(word + TOLLMEANDER_GRANT_LENGTH, length);
}

void grant(uint32_t gref, uint32_t page, uint32_t bits)
{
    grant_range(gref, page, bits, 0, TOLLMEANDER_PAGE_SIZE);
}

void open_queue(uint32_t counter)
{
    consumed = counter;
    replied = counter;
    halted = 0;
    lend_records(RECORDS);
    memset(ring, 0, sizeof ring);
    put32(ring + TOLLMEANDER_RING_REQ_PROD, counter);
    put32(ring + TOLLMEANDER_RING_RSP_PROD, counter);
    put32(ring + TOLLMEANDER_RING_RSP_EVENT, counter + 1);
    memset(grants, 0, sizeof grants);
    grant(READ_GREF, 3, TOLLMEANDER_GRANTED);
    grant(WRITE_GREF, 1, ACCESS);
    grant(OTHER_GREF, 2, ACCESS);
    grant(CLEAR_GREF, 0, TOLLMEANDER_GRANT_WRITABLE);
    grant(OUTER_GREF, PAGES, ACCESS);
    for (size_t i = 0; i < sizeof window; i++)
        window[i] = (uint8_t)(i * 7 + i / TOLLMEANDER_PAGE_SIZE);
    memset(frame, UNCOPIED, sizeof frame);
}

void lend_records(size_t count)
{
    held_len = count;
    memset(held, UNCOPIED, sizeof held);
    memset(held, 0, count * sizeof held[0]);
}

void open_post(uint32_t counter)
{
    open_queue(counter);
    replies_read = counter;
    put32(ring + TOLLMEANDER_RING_REQ_EVENT, counter + 1);
    references[1] = WRITE_GREF;
    references[2] = OTHER_GREF;
    for (size_t i = 0; i < sizeof frame; i++)
        frame[i] = (uint8_t)(i * 5 + i / TOLLMEANDER_PAGE_SIZE);
}

uint8_t *transmit_slot(uint32_t n)
{
    return ring + TOLLMEANDER_RING_FIRST_SLOT +
           TOLLMEANDER_TRANSMIT_SLOT_SIZE * (n % TOLLMEANDER_RING_SLOTS);
}

uint8_t *receive_slot(uint32_t n)
{
    return ring + TOLLMEANDER_RING_FIRST_SLOT +
           TOLLMEANDER_RECEIVE_SLOT_SIZE * (n % TOLLMEANDER_RING_SLOTS);
}

/* Moves req_prod past the next slot; its counter. */
static uint32_t post(void)
{
    uint32_t n = get32(ring + TOLLMEANDER_RING_REQ_PROD);

    put32(ring + TOLLMEANDER_RING_REQ_PROD, n + 1);
    return n;
}

void post_data(uint32_t gref, uint32_t offset, uint32_t flags, uint32_t id, uint32_t size)
{
    uint8_t *slot = transmit_slot(post());

    put32(slot, gref);
    put16(slot + 4, offset);
    put16(slot + 6, flags);
    put16(slot + 8, id);
    put16(slot + 10, size);
}

void post_extra(uint8_t type, uint8_t flags, uint32_t gso_size, uint8_t gso_type)
{
    uint8_t *slot = transmit_slot(post());

    memset(slot, 0, TOLLMEANDER_TRANSMIT_SLOT_SIZE);
    slot[0] = type;
    slot[1] = flags;
    put16(slot + 2, gso_size);
    slot[4] = gso_type;
}

void post_request(uint32_t id, uint32_t gref)
{
    uint8_t *slot = receive_slot(post());

    put16(slot, id);
    put32(slot + 4, gref);
}

void spoil_report(void)
{
    for (size_t i = 0; i < sizeof lent; i += sizeof(uint32_t)) {
        const uint32_t unwritten = UNWRITTEN;

        memcpy((uint8_t *)&lent + i, &unwritten, sizeof unwritten);
    }
}

uint32_t take(size_t ring_len, size_t frame_len)
{
    spoil_report();
    return tollmeander_transmit_take(&consumed, &replied, &halted, ring, ring_len, grants,
                                     sizeof grants, window, sizeof window, held, held_len, frame,
                                     frame_len, &lent.report);
}

uint32_t finish(size_t ring_len, uint32_t ticket, int32_t status)
{
    spoil_report();
    return tollmeander_transmit_finish(consumed, &replied, ring, ring_len, held, held_len, ticket,
                                       status, &lent.report);
}

uint32_t put(size_t ring_len, size_t frame_len)
{
    spoil_report();
    return tollmeander_receive_put(&consumed, &halted, ring, ring_len, grants, sizeof grants,
                                   window, sizeof window, frame, frame_len, &lent.report);
}

uint32_t post_frame(size_t ring_len, size_t count, size_t frame_len, uint32_t gso,
                    uint16_t gso_size, uint8_t gso_type)
{
    spoil_report();
    return tollmeander_transmit_post(replies_read, ring, ring_len, grants, sizeof grants,
                                     window, sizeof window, references + 1, count, frame,
                                     frame_len, gso, gso_size, gso_type, &lent.report);
}

bool reported(uint32_t returned, const uint32_t *words)
{
    return lent.before == UNWRITTEN && lent.after == UNWRITTEN && returned == words[0] &&
           memcmp(&lent.report, words, sizeof lent.report) == 0;
}

void copy_lent(struct lent_copy *copy)
{
    memcpy(copy->ring, ring, sizeof ring);
    memcpy(copy->grants, grants, sizeof grants);
    memcpy(copy->window, window, sizeof window);
    memcpy(copy->frame, frame, sizeof frame);
    memcpy(copy->references, references, sizeof references);
    memcpy(copy->held, held, sizeof held);
    copy->consumed = consumed;
    copy->replied = replied;
    copy->halted = halted;
}

bool is_lent(const struct lent_copy *expected)
{
    return memcmp(expected->ring, ring, sizeof ring) == 0 &&
           memcmp(expected->grants, grants, sizeof grants) == 0 &&
           memcmp(expected->window, window, sizeof window) == 0 &&
           memcmp(expected->frame, frame, sizeof frame) == 0 &&
           memcmp(expected->references, references, sizeof references) == 0 &&
           memcmp(expected->held, held, sizeof held) == 0 && expected->consumed == consumed &&
           expected->replied == replied && expected->halted == halted;
}

bool holds(size_t record, uint32_t ticket, uint32_t slots, uint32_t extras, int32_t status,
           uint32_t finished)
{
    const struct tollmeander_held *is = &held[record];

    return is->ticket == ticket && is->slots == slots && is->extras == extras &&
           is->status == status && is->finished == finished;
}

bool is_zeroed(size_t record)
{
    return holds(record, 0, 0, 0, 0, 0);
}

bool is_reply(uint32_t n, uint32_t id, int32_t status)
{
    return get32(transmit_slot(n)) == (id | (uint32_t)status << 16);
}

bool is_extra_reply(uint32_t n)
{
    return is_reply(n, 0, TOLLMEANDER_REPLY_NULL);
}

bool copied(const uint8_t *to, const uint8_t *from, uint32_t n)
{
    for (uint32_t i = n; i < n + 16; i++)
        if (to[i] != UNCOPIED)
            return false;
    return memcmp(to, from, n) == 0;
}
