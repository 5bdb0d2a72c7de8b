/*
 * A ring page that guest and host have both mapped, as 32-bit atomic words.
 *
 * Every access to such a page is atomic and of this width, so that two sides
 * which write and read it at once make no data race. Slots and replies of both
 * rings are whole words.
 */
#ifndef TOLLMEANDER_RING_PAGE_H
#define TOLLMEANDER_RING_PAGE_H

#include <stdatomic.h>
#include <stdint.h>
#include <string.h>

#include "tollmeander.h"

enum {
    RING_WORD = 4,
    RING_WORDS = TOLLMEANDER_PAGE_SIZE / RING_WORD,
    RING_REQ_PROD = TOLLMEANDER_RING_REQ_PROD / RING_WORD,
    RING_REQ_EVENT = TOLLMEANDER_RING_REQ_EVENT / RING_WORD,
    RING_RSP_PROD = TOLLMEANDER_RING_RSP_PROD / RING_WORD,
    RING_RSP_EVENT = TOLLMEANDER_RING_RSP_EVENT / RING_WORD,
    RING_FIRST_SLOT = TOLLMEANDER_RING_FIRST_SLOT / RING_WORD,
    TRANSMIT_SLOT_WORDS = TOLLMEANDER_TRANSMIT_SLOT_SIZE / RING_WORD,
    TRANSMIT_REPLY_WORDS = 1,
    TRANSMIT_REFERENCE_WORD = 0,
    RECEIVE_SLOT_WORDS = TOLLMEANDER_RECEIVE_SLOT_SIZE / RING_WORD,
    RECEIVE_REPLY_WORDS = 2,
    RECEIVE_REFERENCE_WORD = 1,
    RECEIVE_STATUS_WORD = 1         /* of a reply: flags below, status above */
};

struct ring_page {
    _Atomic uint32_t word[RING_WORDS];
};

_Static_assert(sizeof(struct ring_page) == TOLLMEANDER_PAGE_SIZE, "atomic words are plain words");
_Static_assert(ATOMIC_INT_LOCK_FREE == 2, "a lock would not hold the guest off");
#ifdef __BYTE_ORDER__
_Static_assert(__BYTE_ORDER__ == __ORDER_LITTLE_ENDIAN__, "the words of a ring are little-endian");
#endif

/* The first word of slot n. */
static inline uint32_t ring_slot(uint32_t slot_words, uint32_t n)
{
    return RING_FIRST_SLOT + slot_words * (n % TOLLMEANDER_RING_SLOTS);
}

/* A word of a private page, which the other side has not mapped and the library is lent. */
static inline uint32_t private_word(const uint8_t *page, uint32_t at)
{
    uint32_t word;

    memcpy(&word, page + RING_WORD * at, sizeof word);
    return word;
}

static inline void set_private_word(uint8_t *page, uint32_t at, uint32_t word)
{
    memcpy(page + RING_WORD * at, &word, sizeof word);
}

#endif
