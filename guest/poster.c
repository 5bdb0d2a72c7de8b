#include "poster.h"

#include <string.h>

void poster_open(struct poster *poster, struct ring_page *shared, struct guest_pages *pages,
                 const struct traffic *traffic, uint32_t counter)
{
    memset(poster, 0, sizeof *poster);
    front_ring_open(&poster->ring, shared, counter);
    poster->memory = guest_pages_memory(pages);
    poster->traffic = traffic;
}

/* Lends the library a packet's frame and the pages that belong to its first slots. */
static uint32_t post(struct poster *poster, const struct packet *packet,
                     struct tollmeander_report *report)
{
    uint32_t references[TOLLMEANDER_PACKET_DATA_MAX];
    struct front_gso gso = {
        packet->extras > 0, (uint16_t)packet->gso_size, (uint8_t)packet->gso_type
    };

    for (uint32_t i = 0; i < packet->data_slots; i++)
        references[i] = guest_transmit_gref(poster->ring.posted + i);
    return front_ring_post(&poster->ring, &poster->memory, references, packet->data_slots,
                           poster->frame, packet->length, gso, report);
}

bool poster_post(struct poster *poster, bool *notify)
{
    struct tollmeander_report report;
    struct packet packet;
    uint32_t answer;

    *notify = false;
    if (poster_is_finished(poster))
        return false;
    traffic_packet(poster->traffic, poster->sent, &packet);
    traffic_frame(poster->traffic, poster->sent, packet.length, poster->frame);
    answer = post(poster, &packet, &report);
    *notify = report.notify;
    if (answer == TOLLMEANDER_DONE)
        poster->sent++;
    else if (answer != TOLLMEANDER_NO_SLOTS)
        poster->unexpected++;
    return answer == TOLLMEANDER_DONE;
}

/* Holds what the ring tells of a packet against the traffic. */
static void check(struct poster *poster, const struct front_packet *told)
{
    struct packet packet;

    traffic_packet(poster->traffic, poster->replied++, &packet);
    if (told->status != TOLLMEANDER_REPLY_OKAY || told->pages != packet.data_slots ||
        told->slots != packet.data_slots + packet.extras)
        poster->wrong_replies++;
}

uint32_t poster_collect(struct poster *poster)
{
    enum front_collected collected;
    struct front_packet told;
    uint32_t count = 0;

    for (; (collected = front_ring_collect(&poster->ring, &told)) == FRONT_PACKET; count++)
        check(poster, &told);
    if (collected == FRONT_BROKEN)
        poster->unexpected++;
    return count;
}

uint32_t poster_in_flight(const struct poster *poster)
{
    return poster->ring.posted - poster->ring.replies_read;
}

bool poster_is_finished(const struct poster *poster)
{
    return poster->unexpected > 0 || poster->sent == poster->traffic->packets;
}
