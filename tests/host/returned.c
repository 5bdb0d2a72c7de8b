/*
 * The steps of back_ring against a guest that does with a reply what Linux does: it takes the page
 * back, and looks whether the host has it mapped still. The guest is honest and sends without a
 * pause; the host maps each page when it has copied the slot that names it, and unmaps it after the
 * call that takes the packet. It holds some packets, and then finishes them, the last one first. No
 * packet may be spoiled, and no page found mapped.
 *
 *     returned PACKETS [late]      late: the host unmaps after the replies, and is found out
 */
#include <inttypes.h>
#include <sched.h>
#include <stdbool.h>
#include <stdint.h>
#include <stdio.h>
#include <stdlib.h>
#include <string.h>

#include "grant_table.h"
#include "mapping.h"
#include "ring_page.h"
#include "slot_bits.h"
#include "threads.h"

enum {
    SLOTS = TOLLMEANDER_RING_SLOTS,
    PACKET_SLOTS = 2,
    PART = 100,
    MOST_POSTED = 200,      /* slots, so that the host is always behind */
    MOST_HELD = 3           /* packets */
};

static struct ring_page page;
static struct back_transmit transmit;
static struct mapping mapping;
static uint8_t grants[SLOTS * TOLLMEANDER_GRANT_WORD_SIZE];
static uint8_t window[SLOTS * TOLLMEANDER_PAGE_SIZE];
static uint64_t packets, done, other_answers, still_mapped;
static bool is_late;

/* The guest. Slot n names reference n % 256. */

static void read_replies(uint32_t *replies_read)
{
    uint32_t sent = atomic_load_explicit(&page.word[RING_RSP_PROD], memory_order_acquire);

    for (; *replies_read != sent; (*replies_read)++)
        still_mapped += mapping_has(&mapping, *replies_read % SLOTS);
}

static void write_slot(uint32_t n, uint32_t flags, uint32_t size)
{
    uint32_t first = ring_slot(TRANSMIT_SLOT_WORDS, n);
    const uint32_t words[TRANSMIT_SLOT_WORDS] = {
        n % SLOTS, flags << 16, (n & 0xFFFF) | size << 16
    };

    for (uint32_t i = 0; i < TRANSMIT_SLOT_WORDS; i++)
        atomic_store_explicit(&page.word[first + i], words[i], memory_order_relaxed);
}

static void run_guest(void)
{
    uint32_t posted = 0, replies_read = 0;

    for (uint64_t packet = 0; packet < packets; packet++) {
        while (posted - replies_read > MOST_POSTED)
            read_replies(&replies_read);
        write_slot(posted, MORE_DATA, PACKET_SLOTS * PART);
        write_slot(posted + 1, 0, PART);
        posted += PACKET_SLOTS;
        atomic_store_explicit(&page.word[RING_REQ_PROD], posted, memory_order_release);
    }
    while (replies_read != posted)
        read_replies(&replies_read);
}

/* The host. */

/* Takes a packet, if one is there; whether it is held. */
static bool take(struct back_ticket *ticket)
{
    static uint8_t frame[PACKET_SLOTS * PART];
    const struct guest_memory mapped = mapping_memory(&mapping);
    struct tollmeander_report report;

    back_ring_look(&transmit.ring);
    mapping_map(&mapping, &transmit.ring);
    back_transmit_take_copied(&transmit, &mapped, frame, sizeof frame, &report);
    if (!is_late)
        mapping_unmap(&mapping, &transmit.ring, report.slots);
    back_ring_publish(&transmit.ring);
    *ticket = back_transmit_ticket(&transmit, &report);
    done += report.answer == TOLLMEANDER_DONE;
    other_answers += report.answer != TOLLMEANDER_DONE && report.answer != TOLLMEANDER_EMPTY;
    return report.answer == TOLLMEANDER_DONE;
}

static void finish(struct back_ticket ticket)
{
    struct tollmeander_report report;

    other_answers += back_transmit_finish_copied(&transmit, ticket, TOLLMEANDER_REPLY_OKAY,
                                                 &report) != TOLLMEANDER_DONE;
}

/* Takes some packets and finishes them. */
static void serve(void)
{
    struct back_ticket held[MOST_HELD];
    uint32_t first = transmit.ring.consumed;
    uint32_t count = 0;

    while (count < MOST_HELD && take(&held[count]))
        count++;
    for (uint32_t i = count; i > 0; i--)
        finish(held[i - 1]);
    back_ring_publish(&transmit.ring);
    if (count == 0 || is_late)
        sched_yield();
    if (is_late)
        mapping_unmap(&mapping, &transmit.ring, transmit.ring.consumed - first);
}

static void run_host(void)
{
    while (done < packets && other_answers == 0)
        serve();
}

int main(int argc, char **argv)
{
    const struct guest_memory memory = { grants, sizeof grants, window, sizeof window };

    packets = argc > 1 ? strtoull(argv[1], NULL, 10) : 100000;
    is_late = argc > 2 && strcmp(argv[2], "late") == 0;
    for (uint32_t i = 0; i < SLOTS; i++)
        grant_table_set(grants, i, i, TOLLMEANDER_GRANTED);
    mapping_open(&mapping, &memory, 0);
    if (!back_transmit_open(&transmit, &page, 0, MOST_HELD))
        return 2;
    threads_run(run_guest, run_host);
    printf("returned: %" PRIu64 " packets of %" PRIu64 " done, %" PRIu64 " other answers, "
           "replies read while the page was mapped: %" PRIu64 "\n",
           done, packets, other_answers, still_mapped);
    return done == packets && other_answers == 0 && still_mapped == 0 ? 0 : 1;
}
