#include "guest.h"

#include <string.h>

enum {
    LONGEST_BURST = 48,     /* of slots */
    MOST_PACKETS = 24       /* of a burst of packets */
};

void guest_open(struct guest *guest, const struct traffic *traffic, const struct lapses *lapses,
                struct events *events, uint32_t counter)
{
    memset(guest, 0, sizeof *guest);
    guest->traffic = traffic;
    guest->lapses = lapses;
    guest->posts = traffic->plain;
    guest_pages_open(&guest->pages, guest->posts);
    if (guest->posts)
        poster_open(&guest->poster, &guest->transmit_page, &guest->pages, traffic, counter);
    else
        sender_open(&guest->sender, &guest->transmit_page, &guest->pages, traffic, counter);
    receiver_open(&guest->receiver, &guest->receive_page, &guest->pages, traffic, counter);
    guest->events = events;
    guest->rng = rng_of(traffic->seed, UINT64_MAX);
}

static void publish(struct guest *guest, struct slot_ring *ring, uint32_t count)
{
    if (slot_ring_publish(ring, count))
        events_notify_host(guest->events);
}

/* Posts all buffers that may be posted. */
static void post_buffers(struct guest *guest)
{
    publish(guest, &guest->receiver.ring, receiver_write(&guest->receiver, TOLLMEANDER_RING_SLOTS));
}

/* Writes some slots and publishes a piece of what is written. */
static void post_slots(struct guest *guest)
{
    struct slot_ring *ring = &guest->sender.ring;
    uint32_t unpublished, piece;

    sender_write(&guest->sender, rng_below(&guest->rng, LONGEST_BURST));
    unpublished = ring->written - ring->published;
    if (unpublished == 0)
        return;
    piece = guest->sender.crashed ? unpublished : 1 + rng_below(&guest->rng, unpublished);
    publish(guest, ring, piece);
}

/* Posts some whole packets, as far as the ring takes them. */
static void post_packets(struct guest *guest)
{
    uint32_t left = rng_below(&guest->rng, MOST_PACKETS);
    bool notify;

    for (; left > 0 && poster_post(&guest->poster, &notify); left--)
        if (notify)
            events_notify_host(guest->events);
}

/* Holds what the ring tells of a packet against the traffic, and against what its device does. */
static void check_packet(struct guest *guest, const struct front_packet *told)
{
    uint64_t number = guest->poster.replied++;
    struct packet packet;

    traffic_packet(guest->traffic, number, &packet);
    if (told->status != lapse_status(lapse_of(guest->lapses, number)) ||
        told->pages != packet.data_slots || told->slots != packet.data_slots + packet.extras)
        guest->poster.wrong_replies++;
}

/* Checks the packets that are replied to, which come in the order of posting; their slots. */
static uint32_t collect_packets(struct guest *guest)
{
    enum front_collected collected;
    struct front_packet told;
    uint32_t slots = 0;

    while ((collected = front_ring_collect(&guest->poster.ring, &told)) == FRONT_PACKET) {
        check_packet(guest, &told);
        slots += told.slots;
    }
    if (collected == FRONT_BROKEN)
        guest->poster.unexpected++;
    return slots;
}

/* Whether the guest has published what it has written, and waits for a reply or is finished. */
static bool has_sent(const struct guest *guest)
{
    const struct sender *sender = &guest->sender;
    bool waits = guest->fills_ring ? slot_ring_free(&sender->ring) == 0
                                   : sender->complete != sender->ring.replied;

    return sender->ring.published == sender->ring.written &&
           (waits || sender_is_finished(sender));
}

/* The same, of a guest that posts whole packets. */
static bool has_posted(const struct poster *poster)
{
    return poster_in_flight(poster) > 0 || poster_is_finished(poster);
}

/* Whether there is nothing to do, now that the guest has asked for events. */
static bool may_sleep(struct guest *guest)
{
    bool no_replies = guest->posts ? front_ring_await(&guest->poster.ring, 1)
                                   : slot_ring_await(&guest->sender.ring, 1);
    bool no_frames = slot_ring_await(&guest->receiver.ring, 1);

    return no_replies && no_frames &&
           (guest->posts ? has_posted(&guest->poster) : has_sent(guest));
}

/* Whether the guest does nothing more: it crashed, or got an answer that must not come. */
static bool has_stopped(const struct guest *guest)
{
    return guest->posts ? guest->poster.unexpected > 0 : guest->sender.crashed;
}

bool guest_turn(struct guest *guest)
{
    if (has_stopped(guest) || (guest->asleep && !guest->events->guest_pending))
        return false;
    guest->asleep = false;
    guest->events->guest_pending = false;
    guest->replies += guest->posts ? collect_packets(guest) : sender_collect(&guest->sender);
    receiver_collect(&guest->receiver);
    post_buffers(guest);
    if (guest->posts)
        post_packets(guest);
    else
        post_slots(guest);
    guest->asleep = may_sleep(guest);
    return true;
}

bool guest_is_finished(const struct guest *guest)
{
    return guest->posts ? poster_is_finished(&guest->poster) : sender_is_finished(&guest->sender);
}

uint32_t guest_posted(const struct guest *guest)
{
    return guest->posts ? guest->poster.ring.posted : guest->sender.ring.published;
}

uint32_t guest_in_flight(const struct guest *guest)
{
    return guest->posts ? poster_in_flight(&guest->poster) : sender_in_flight(&guest->sender);
}

uint64_t guest_wrong_replies(const struct guest *guest)
{
    return guest->posts ? guest->poster.wrong_replies : guest->sender.wrong_replies;
}
