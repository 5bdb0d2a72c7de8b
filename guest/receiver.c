#include "receiver.h"

#include <string.h>

#include "slot_bits.h"

void receiver_open(struct receiver *receiver, struct ring_page *shared, struct guest_pages *pages,
                   const struct traffic *traffic, uint32_t counter)
{
    memset(receiver, 0, sizeof *receiver);
    slot_ring_open(&receiver->ring, shared, RECEIVE_SLOT_WORDS, counter);
    receiver->pages = pages;
    receiver->traffic = traffic;
    receiver->next = traffic_next_good(traffic, 0);
}

static uint32_t request_id(uint32_t n)
{
    return (n * 17 + 3) & 0xFFFF;
}

uint32_t receiver_write(struct receiver *receiver, uint32_t limit)
{
    uint32_t count = 0;

    for (; count < limit && slot_ring_free(&receiver->ring) > 0; count++) {
        uint32_t n = receiver->ring.written;
        uint32_t slot[RECEIVE_SLOT_WORDS] = {
            request_id(n) | 0xBEEF0000, guest_receive_gref(n)
        };

        slot_ring_write(&receiver->ring, slot);
    }
    return count;
}

/* Checks the frame that has come in whole, and begins the next. */
static void finish_frame(struct receiver *receiver)
{
    struct packet packet;

    traffic_packet(receiver->traffic, receiver->next, &packet);
    if (receiver->length != packet.length ||
        !traffic_is_frame(receiver->traffic, packet.number, packet.length, receiver->frame))
        receiver->wrong_frames++;
    receiver->frames++;
    receiver->next = traffic_next_good(receiver->traffic, receiver->next + 1);
    receiver->length = 0;
}

/* Whether a reply has its request's id, offset 0, and a piece that its frame has room for. */
static bool is_right_reply(const struct receiver *receiver, uint32_t n, const uint32_t *slot)
{
    uint32_t flags = slot[1] & 0xFFFF;
    uint32_t piece = slot[1] >> 16;

    if (slot[0] != request_id(n) || piece == 0 || piece > TOLLMEANDER_PAGE_SIZE ||
        receiver->length + piece > TOLLMEANDER_FRAME_MAX)
        return false;
    return flags == 0 || (flags == MORE_DATA && piece == TOLLMEANDER_PAGE_SIZE);
}

static void take_piece(struct receiver *receiver, uint32_t n, const uint32_t *slot)
{
    uint32_t piece = slot[1] >> 16;

    memcpy(receiver->frame + receiver->length, guest_receive_page(receiver->pages, n), piece);
    receiver->length += piece;
    if ((slot[1] & MORE_DATA) == 0)
        finish_frame(receiver);
}

uint32_t receiver_collect(struct receiver *receiver)
{
    uint32_t count = slot_ring_replies(&receiver->ring);

    for (uint32_t i = 0; i < count; i++) {
        uint32_t n = receiver->ring.replied;
        uint32_t slot[RECEIVE_SLOT_WORDS];

        slot_ring_read(&receiver->ring, slot);
        if (is_right_reply(receiver, n, slot))
            take_piece(receiver, n, slot);
        else
            receiver->wrong_replies++;
    }
    return count;
}
