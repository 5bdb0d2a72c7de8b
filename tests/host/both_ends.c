/*
 * Both ends of a ring on one page, in what C99 and C++ have in common: the driver posts a frame,
 * the host takes it and drops it later, the driver is told that its page is free, and an answer has
 * its name.
 */
#include <string.h>

#include "back_ring.h"
#include "front_ring.h"
#include "grant_table.h"
#include "names.h"

enum { GREF = 0, LENGTH = 60 };

static uint32_t shared[TOLLMEANDER_PAGE_SIZE / sizeof(uint32_t)];
static uint8_t grants[TOLLMEANDER_GRANT_WORD_SIZE], window[TOLLMEANDER_PAGE_SIZE];
static struct front_ring front;
static struct back_transmit back;

int main(void)
{
    const struct guest_memory memory = { grants, sizeof grants, window, sizeof window };
    const struct front_gso no_gso = { 0, 0, 0 };
    const uint32_t references[] = { GREF };
    const uint8_t frame[LENGTH] = "hello from the driver";
    uint8_t taken[LENGTH];
    struct tollmeander_report posted, took;
    struct front_packet packet;
    struct back_ticket ticket;

    grant_table_set(grants, GREF, 0, TOLLMEANDER_GRANTED | TOLLMEANDER_GRANT_WRITABLE);
    front_ring_open(&front, shared, 0);
    if (!back_transmit_open(&back, shared, 0, 1))
        return 6;
    if (front_ring_post(&front, &memory, references, 1, frame, LENGTH, no_gso, &posted) !=
        TOLLMEANDER_DONE || !posted.notify || !front_ring_await(&front, 1))
        return 1;
    if (back_transmit_take(&back, &memory, taken, LENGTH, &took) != TOLLMEANDER_DONE ||
        took.notify || memcmp(taken, frame, LENGTH) != 0)
        return 2;
    if (front_ring_collect(&front, &packet) != FRONT_NONE)
        return 3;
    ticket = back_transmit_ticket(&back, &took);
    if (back_ring_next(back_transmit_take(&back, &memory, taken, LENGTH, &took)) != BACK_SLEEP)
        return 4;
    if (back_transmit_finish(&back, ticket, TOLLMEANDER_REPLY_DROPPED, &posted) !=
        TOLLMEANDER_DONE || !posted.notify)
        return 7;
    if (front_ring_collect(&front, &packet) != FRONT_PACKET || packet.pages != 1 ||
        packet.status != TOLLMEANDER_REPLY_DROPPED)
        return 8;
    return strcmp(tollmeander_answer_name(took.answer), "empty") == 0 ? 0 : 5;
}
