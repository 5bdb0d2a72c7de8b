#include "guest_pages.h"

#include <string.h>

#include "grant_table.h"

enum { FIRST_GREF = 8, WRITABLE = TOLLMEANDER_GRANTED | TOLLMEANDER_GRANT_WRITABLE };

static uint32_t transmit_page_number(uint32_t n)
{
    return 2 * (n % TOLLMEANDER_RING_SLOTS);
}

static uint32_t receive_page_number(uint32_t n)
{
    return transmit_page_number(n) + 1;
}

uint32_t guest_transmit_gref(uint32_t n)
{
    return FIRST_GREF + 3 * (n % TOLLMEANDER_RING_SLOTS);
}

uint32_t guest_receive_gref(uint32_t n)
{
    return guest_transmit_gref(n) + 1;
}

uint32_t guest_ungranted_gref(uint32_t n)
{
    return guest_transmit_gref(n) + 2;
}

uint8_t *guest_transmit_page(struct guest_pages *pages, uint32_t n)
{
    return pages->window + TOLLMEANDER_PAGE_SIZE * transmit_page_number(n);
}

uint8_t *guest_receive_page(struct guest_pages *pages, uint32_t n)
{
    return pages->window + TOLLMEANDER_PAGE_SIZE * receive_page_number(n);
}

void guest_pages_open(struct guest_pages *pages, bool transmit_is_writable)
{
    memset(pages, 0, sizeof *pages);
    for (uint32_t n = 0; n < TOLLMEANDER_RING_SLOTS; n++) {
        grant_table_set(pages->grants, guest_transmit_gref(n), transmit_page_number(n),
                        transmit_is_writable ? WRITABLE : TOLLMEANDER_GRANTED);
        grant_table_set(pages->grants, guest_receive_gref(n), receive_page_number(n), WRITABLE);
    }
}

struct guest_memory guest_pages_memory(struct guest_pages *pages)
{
    struct guest_memory memory = {
        .grants = pages->grants, .grants_len = sizeof pages->grants,
        .window = pages->window, .window_len = sizeof pages->window
    };

    return memory;
}
