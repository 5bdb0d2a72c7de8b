#include "pages.h"

#include <stdlib.h>
#include <string.h>

#include "grant_table.h"

enum {
    SLOTS = TOLLMEANDER_RING_SLOTS,
    PAGE = TOLLMEANDER_PAGE_SIZE,
    WINDOW = 2 * SLOTS * PAGE,
    PIECES = TOLLMEANDER_FRAME_MAX / PAGE + 1       /* of the longest frame */
};

bool pages_open(struct pages *pages, xengnttab_handle *grants, uint16_t domid)
{
    void *window;

    memset(pages, 0, sizeof *pages);
    if (posix_memalign(&window, PAGE, WINDOW) != 0)
        return false;
    memset(window, 0, WINDOW);
    pages->grants = grants;
    pages->domid = domid;
    pages->window = window;
    pages->receive.first_page = SLOTS;
    return true;
}

void pages_close(struct pages *pages)
{
    free(pages->window);
    pages->window = NULL;
}

static struct guest_memory memory_of(const struct pages *pages, const struct page_words *words)
{
    return (struct guest_memory){ words->word, sizeof words->word, pages->window, WINDOW };
}

struct guest_memory pages_transmit_memory(const struct pages *pages)
{
    return memory_of(pages, &pages->transmit);
}

struct guest_memory pages_receive_memory(const struct pages *pages)
{
    return memory_of(pages, &pages->receive);
}

static uint32_t page_of_slot(const struct page_words *words, uint32_t n)
{
    return words->first_page + n % SLOTS;
}

static uint8_t *at_page(const struct pages *pages, uint32_t page)
{
    return pages->window + (size_t)PAGE * page;
}

/* A copy of the guest's page that slot n names; false if its reference is beyond the table. */
static bool plan_copy_in(const struct pages *pages, const struct back_ring *ring, uint32_t n,
                         xengnttab_grant_copy_segment_t *copy)
{
    uint32_t reference = back_ring_reference(ring, n);

    if (reference >= PAGES_REFERENCES)
        return false;
    memset(copy, 0, sizeof *copy);
    copy->source.foreign.ref = reference;
    copy->source.foreign.domid = pages->domid;
    copy->dest.virt = at_page(pages, page_of_slot(&pages->transmit, n));
    copy->len = PAGE;
    copy->flags = GNTCOPY_source_gref;
    return true;
}

void pages_fetch_transmit(struct pages *pages, const struct back_ring *ring)
{
    struct page_words *words = &pages->transmit;
    xengnttab_grant_copy_segment_t copy[SLOTS];
    uint32_t slot[SLOTS], count = 0;
    bool copied;

    for (; words->fetched != ring->copied; words->fetched++)
        if (plan_copy_in(pages, ring, words->fetched, &copy[count]))
            slot[count++] = words->fetched;
    if (count == 0)
        return;
    copied = xengnttab_grant_copy(pages->grants, count, copy) == 0;
    for (uint32_t i = 0; i < count; i++) {
        uint32_t reference = copy[i].source.foreign.ref;

        if (copied && copy[i].status == GNTST_okay)
            grant_table_set(words->word, reference, page_of_slot(words, slot[i]),
                            TOLLMEANDER_GRANTED);
        else
            grant_table_clear(words->word, reference);
    }
}

void pages_fetch_receive(struct pages *pages, const struct back_ring *ring)
{
    struct page_words *words = &pages->receive;

    for (; words->fetched != ring->copied; words->fetched++) {
        uint32_t reference = back_ring_reference(ring, words->fetched);

        if (reference < PAGES_REFERENCES)
            grant_table_set(words->word, reference, page_of_slot(words, words->fetched),
                            TOLLMEANDER_GRANTED | TOLLMEANDER_GRANT_WRITABLE);
    }
}

/* A copy of a piece of a frame to the guest's page that request n names. */
static void plan_copy_out(const struct pages *pages, const struct back_ring *ring, uint32_t n,
                          uint32_t length, xengnttab_grant_copy_segment_t *copy)
{
    uint32_t reference = back_ring_reference(ring, n);

    memset(copy, 0, sizeof *copy);
    copy->source.virt = at_page(pages, grant_table_page(pages->receive.word, reference));
    copy->dest.foreign.ref = reference;
    copy->dest.foreign.domid = pages->domid;
    copy->len = (uint16_t)length;
    copy->flags = GNTCOPY_dest_gref;
}

bool pages_deliver(struct pages *pages, const struct back_ring *ring, uint32_t length,
                   uint32_t *place)
{
    xengnttab_grant_copy_segment_t copy[PIECES];
    const uint32_t count = (length + PAGE - 1) / PAGE;

    *place = 0;
    for (uint32_t i = 0; i < count; i++) {
        uint32_t rest = length - PAGE * i;

        plan_copy_out(pages, ring, ring->consumed - count + i, rest < PAGE ? rest : PAGE,
                      &copy[i]);
    }
    if (xengnttab_grant_copy(pages->grants, count, copy) != 0)
        return false;
    while (*place < count && copy[*place].status == GNTST_okay)
        ++*place;
    return *place == count;
}

/* Clears the words of the last slots consumed, but those that a later slot has taken over. */
static void clear_words(struct page_words *words, const struct back_ring *ring, uint32_t slots)
{
    for (uint32_t n = ring->consumed - slots; n != ring->consumed; n++) {
        uint32_t reference = back_ring_reference(ring, n);

        if (reference < PAGES_REFERENCES &&
            grant_table_page(words->word, reference) == page_of_slot(words, n))
            grant_table_clear(words->word, reference);
    }
}

void pages_return_transmit(struct pages *pages, const struct back_ring *ring, uint32_t slots)
{
    clear_words(&pages->transmit, ring, slots);
}

void pages_return_receive(struct pages *pages, const struct back_ring *ring, uint32_t slots)
{
    clear_words(&pages->receive, ring, slots);
}
