/*
 * The words of a grant table, as a host fills them in; see tollmeander.h, "Grants
 * and window". Not while a call is lent the table.
 */
#ifndef TOLLMEANDER_GRANT_TABLE_H
#define TOLLMEANDER_GRANT_TABLE_H

#include <stdint.h>
#include <string.h>

#include "tollmeander.h"

/*
 * Grants length octets of a page of the window, from octet start of the page on.
 * access is TOLLMEANDER_GRANTED, with TOLLMEANDER_GRANT_WRITABLE if they may be
 * written. The table has a word for gref, and page is below 2^30.
 */
static inline void grant_table_set_range(uint8_t *grants, uint32_t gref, uint32_t page,
                                         uint32_t access, uint16_t start, uint16_t length)
{
    uint8_t *word = grants + (size_t)TOLLMEANDER_GRANT_WORD_SIZE * gref;
    const uint32_t bits = page << TOLLMEANDER_GRANT_PAGE_BIT | access;

    for (unsigned i = 0; i < 4; i++)
        word[i] = (uint8_t)(bits >> 8 * i);
    for (unsigned i = 0; i < 2; i++) {
        word[TOLLMEANDER_GRANT_START + i] = (uint8_t)(start >> 8 * i);
        word[TOLLMEANDER_GRANT_LENGTH + i] = (uint8_t)(length >> 8 * i);
    }
}

/* Grants a whole page. */
static inline void grant_table_set(uint8_t *grants, uint32_t gref, uint32_t page, uint32_t access)
{
    grant_table_set_range(grants, gref, page, access, 0, TOLLMEANDER_PAGE_SIZE);
}

/* The page that the word of gref names; 0 also for a word that grants nothing. */
static inline uint32_t grant_table_page(const uint8_t *grants, uint32_t gref)
{
    const uint8_t *word = grants + (size_t)TOLLMEANDER_GRANT_WORD_SIZE * gref;
    uint32_t bits = 0;

    for (unsigned i = 0; i < 4; i++)
        bits |= (uint32_t)word[i] << 8 * i;
    return bits >> TOLLMEANDER_GRANT_PAGE_BIT;
}

/* Takes a grant back, before its page is unmapped. */
static inline void grant_table_clear(uint8_t *grants, uint32_t gref)
{
    memset(grants + (size_t)TOLLMEANDER_GRANT_WORD_SIZE * gref, 0, TOLLMEANDER_GRANT_WORD_SIZE);
}

#endif
