/*
 * A guest's data pages, brought here and sent there by grant copy.
 *
 * Nothing of the guest's data is ever mapped: Xen copies between the guest's pages and a
 * window of our own, in which page n % 256 is for transmit slot n and page
 * 256 + n % 256 for receive request n. The two rings have a grant table each, so that a
 * reference may stand on both, and a transmit word is never writable.
 *
 * A word names the page of the last slot that named the reference, and is cleared when
 * that slot is consumed. So a reference may stand in several slots at once. Words go by slots
 * consumed, whenever their replies leave.
 *
 * NOTE: Extras cannot be told from data slots before the call. The first four octets of an
 *       extra are taken for a reference too: nearly always above the table's end, else a copy
 *       that fails, or of a page that the guest has granted and that no slot needs.
 * NOTE: Whole pages are copied. Of a page that is granted in part (grant table version 2)
 *       Xen refuses that: copy the granted range to where it stands in its page, and say so
 *       in its word (grant_table_set_range).
 */
#ifndef TOLLMEANDER_PAGES_H
#define TOLLMEANDER_PAGES_H

#include <stdbool.h>
#include <stdint.h>

#include "back_ring.h"
#include "xen.h"

enum {
    /* Xen's default of 64 grant frames of 512 references, version 1. What is above is refused. */
    PAGES_REFERENCES = 64 * 512
};

/* The grant table of one ring. */
struct page_words {
    uint32_t fetched;               /* slots before this counter have their words */
    uint32_t first_page;
    uint8_t word[PAGES_REFERENCES * TOLLMEANDER_GRANT_WORD_SIZE];
};

struct pages {
    xengnttab_handle *grants;
    uint16_t domid;
    uint8_t *window;
    struct page_words transmit;
    struct page_words receive;
};

bool pages_open(struct pages *pages, xengnttab_handle *grants, uint16_t domid);
void pages_close(struct pages *pages);

/* What to lend to a call for each ring. */
struct guest_memory pages_transmit_memory(const struct pages *pages);
struct guest_memory pages_receive_memory(const struct pages *pages);

/* After a look, before the call: grants what the copied slots name. On transmit it is copied in. */
void pages_fetch_transmit(struct pages *pages, const struct back_ring *ring);
void pages_fetch_receive(struct pages *pages, const struct back_ring *ring);

/*
 * After a put that is DONE, before publishing: copies the pieces of a frame of a length to the
 * guest's pages. False, with the first piece's place, if Xen refused one.
 */
bool pages_deliver(struct pages *pages, const struct back_ring *ring, uint32_t length,
                   uint32_t *place);

/* Before publishing: takes back the grants of the last slots consumed. */
void pages_return_transmit(struct pages *pages, const struct back_ring *ring, uint32_t slots);
void pages_return_receive(struct pages *pages, const struct back_ring *ring, uint32_t slots);

#endif
