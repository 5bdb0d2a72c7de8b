#include <stdio.h>
#include <string.h>
#include <tollmeander/back_ring.h>
#include <tollmeander/grant_table.h>
#include <tollmeander/names.h>

/* What the guest has mapped too: its ring page, and its pages, end to end. */
static uint32_t shared[TOLLMEANDER_PAGE_SIZE / sizeof(uint32_t)];
static uint8_t window[4 * TOLLMEANDER_PAGE_SIZE];

/* The guest posts a frame of 60 bytes, at offset 100 of the page that reference 3 grants. */
static void guest_posts(void)
{
    const uint8_t slot[] = { 3, 0, 0, 0, 100, 0, 0, 0, 7, 0, 60, 0 };
    uint8_t *ring = (uint8_t *)shared;

    strcpy((char *)window + 3 * TOLLMEANDER_PAGE_SIZE + 100, "hello from the guest");
    memcpy(ring + TOLLMEANDER_RING_FIRST_SLOT, slot, sizeof slot);
    ring[TOLLMEANDER_RING_RSP_EVENT] = 1;
    ring[TOLLMEANDER_RING_REQ_PROD] = 1;
}

static void notify_if_told(const struct tollmeander_report *report)
{
    if (report->notify)
        puts("now notify the guest");
}

int main(void)
{
    static uint8_t grants[4 * TOLLMEANDER_GRANT_WORD_SIZE], frame[TOLLMEANDER_FRAME_MAX];
    static struct back_transmit transmit;
    const struct guest_memory memory = { grants, sizeof grants, window, sizeof window };
    struct tollmeander_report report;
    struct back_ticket ticket = { 0, 0 };
    enum back_next next;

    guest_posts();
    grant_table_set(grants, 3, 3, TOLLMEANDER_GRANTED);     /* reference 3 is page 3, read only */
    if (!back_transmit_open(&transmit, shared, 0, 8))       /* up to eight packets are held */
        return 1;
    do {
        uint32_t answer = back_transmit_take(&transmit, &memory, frame, sizeof frame, &report);

        if (answer == TOLLMEANDER_DONE) {
            ticket = back_transmit_ticket(&transmit, &report);
            printf("%u bytes: %s\n", (unsigned)report.total, (const char *)frame);
        } else {
            puts(tollmeander_answer_name(answer));
        }
        notify_if_told(&report);
        next = back_ring_next(answer);
    } while (next == BACK_GO_ON);

    /* Later, when the device has confirmed the packet. */
    back_transmit_finish(&transmit, ticket, TOLLMEANDER_REPLY_OKAY, &report);
    printf("%s, %u replied to\n", tollmeander_answer_name(report.answer), (unsigned)report.slots);
    notify_if_told(&report);
    return next == BACK_SLEEP ? 0 : 1;
}
