#include "sender.h"

#include <string.h>

#include "slot_bits.h"

enum { IGNORED_FLAGS = 0xA5F0 };

void sender_open(struct sender *sender, struct ring_page *shared, struct guest_pages *pages,
                 const struct traffic *traffic, uint32_t counter)
{
    memset(sender, 0, sizeof *sender);
    slot_ring_open(&sender->ring, shared, TRANSMIT_SLOT_WORDS, counter);
    sender->pages = pages;
    sender->traffic = traffic;
    sender->complete = counter;
}

static void expect(struct sender *sender, uint32_t n, uint32_t id, int status)
{
    struct expected_reply *reply = &sender->expected[n % TOLLMEANDER_RING_SLOTS];

    reply->id = (uint16_t)id;
    reply->status = (int16_t)status;
}

static uint32_t data_flags(const struct packet *packet, uint32_t index)
{
    uint32_t flags = IGNORED_FLAGS;

    if (index == 0)
        flags |= packet->flags;
    if (index == 0 && packet->extras > 0)
        flags |= EXTRA_FOLLOWS;
    if (index + 1 < packet->data_slots)
        flags |= MORE_DATA;
    if (packet->fault == FAULT_MISSHAPEN && index == FAULTY_PLACE)
        flags |= EXTRA_FOLLOWS;
    return flags;
}

/* Lays a part into its page and writes its slot. */
static void write_data(struct sender *sender, uint32_t index)
{
    const struct packet *packet = &sender->packet;
    uint32_t n = sender->ring.written;
    uint32_t id = (n * 31 + 7) & 0xFFFF;
    uint32_t size = index == 0 ? packet->length : packet->part[index];
    bool spoiled = packet->fault == FAULT_UNGRANTED;
    uint32_t gref = spoiled && index == FAULTY_PLACE ? guest_ungranted_gref(n)
                                                     : guest_transmit_gref(n);
    uint32_t slot[TRANSMIT_SLOT_WORDS] = {
        gref,
        packet->offset[index] | data_flags(packet, index) << 16,
        id | size << 16
    };
    uint32_t from = 0;

    for (uint32_t i = 0; i < index; i++)
        from += packet->part[i];
    memcpy(guest_transmit_page(sender->pages, n) + packet->offset[index],
           sender->frame + from, packet->part[index]);
    expect(sender, n, id, spoiled ? TOLLMEANDER_REPLY_ERROR : TOLLMEANDER_REPLY_OKAY);
    slot_ring_write(&sender->ring, slot);
}

/* Writes an extra. Only the last one's gso counts. */
static void write_extra(struct sender *sender, bool last)
{
    const struct packet *packet = &sender->packet;
    uint32_t flags = last ? 0 : EXTRA_MORE;
    uint32_t gso_size = last ? packet->gso_size : 0;
    uint32_t gso_type = last ? packet->gso_type : 0xFF;
    uint32_t slot[TRANSMIT_SLOT_WORDS] = {
        EXTRA_TYPE_GSO | flags << 8 | gso_size << 16, gso_type, UINT32_MAX
    };

    expect(sender, sender->ring.written, 0, TOLLMEANDER_REPLY_NULL);
    slot_ring_write(&sender->ring, slot);
}

/* Writes the next slot of the packet; a guest that crashes does so before its last. */
static void write_slot(struct sender *sender)
{
    const struct packet *packet = &sender->packet;
    uint32_t place = sender->place;

    if (place == 0)
        write_data(sender, 0);
    else if (place <= packet->extras)
        write_extra(sender, place == packet->extras);
    else
        write_data(sender, place - packet->extras);
    sender->place++;
    if (packet->fault == FAULT_CRASH && sender->place == FAULTY_PLACE)
        sender->crashed = true;
    if (sender->place == packet->extras + packet->data_slots) {
        sender->place = 0;
        sender->sent++;
        sender->complete = sender->ring.written;
    }
}

uint32_t sender_write(struct sender *sender, uint32_t limit)
{
    uint32_t count = 0;

    while (count < limit && slot_ring_free(&sender->ring) > 0 && !sender_is_finished(sender)) {
        struct packet *packet = &sender->packet;

        if (sender->place == 0) {
            traffic_packet(sender->traffic, sender->sent, packet);
            traffic_frame(sender->traffic, sender->sent, packet->length, sender->frame);
        }
        write_slot(sender);
        count++;
    }
    return count;
}

uint32_t sender_collect(struct sender *sender)
{
    uint32_t count = slot_ring_replies(&sender->ring);

    for (uint32_t i = 0; i < count; i++) {
        uint32_t n = sender->ring.replied;
        const struct expected_reply *expected = &sender->expected[n % TOLLMEANDER_RING_SLOTS];
        uint32_t slot[TRANSMIT_SLOT_WORDS];

        slot_ring_read(&sender->ring, slot);
        if (slot[0] != (expected->id | (uint32_t)(uint16_t)expected->status << 16))
            sender->wrong_replies++;
    }
    return count;
}

uint32_t sender_in_flight(const struct sender *sender)
{
    return sender->ring.written - sender->ring.replied;
}

bool sender_is_finished(const struct sender *sender)
{
    return sender->crashed || sender->sent == sender->traffic->packets;
}
