#include "front_ring.h"

#include <string.h>

#include "ring_page.h"

enum {
    ID_BITS = 16,       /* a reply's lower bits, the status above them */
    ID_MASK = 0xFFFF,
    EXTRA_PLACE = 1     /* of the gso extra in its packet, the first slot being 0 */
};

/* Stores a word of the backend's page, in no order with others: a later barrier makes one. */
static void store(struct front_ring *ring, uint32_t at, uint32_t word)
{
    atomic_store_explicit(&ring->shared->word[at], word, memory_order_relaxed);
}

void front_ring_open(struct front_ring *ring, void *shared, uint32_t counter)
{
    memset(ring, 0, sizeof *ring);
    ring->shared = shared;
    ring->posted = counter;
    ring->replies_read = counter;
    set_private_word(ring->page, RING_REQ_PROD, counter);
    for (uint32_t at = 0; at < RING_WORDS; at++)
        store(ring, at, 0);
    store(ring, RING_REQ_PROD, counter);
    store(ring, RING_REQ_EVENT, counter + 1);
    store(ring, RING_RSP_PROD, counter);
    store(ring, RING_RSP_EVENT, counter + 1);
}

/* The packet in flight whose first slot this is. */
static struct front_flight *flight_at(struct front_ring *ring, uint32_t first)
{
    return &ring->flight[first % TOLLMEANDER_RING_SLOTS];
}

/* Publishes the slots from ring->posted up to end, and then req_prod. */
static void publish_slots(struct front_ring *ring, uint32_t end)
{
    for (; ring->posted != end; ring->posted++) {
        uint32_t first = ring_slot(TRANSMIT_SLOT_WORDS, ring->posted);

        for (uint32_t at = first; at < first + TRANSMIT_SLOT_WORDS; at++)
            store(ring, at, private_word(ring->page, at));
    }
    /* The backend sees the slots and their pages first. */
    atomic_store_explicit(&ring->shared->word[RING_REQ_PROD], end, memory_order_release);
}

/* Whether the backend waits for one of the last slots published. */
static bool backend_waits(struct front_ring *ring, uint32_t slots)
{
    uint32_t req_event;

    /* Either we read the req_event that the backend has just written, or it reads our req_prod. */
    atomic_thread_fence(memory_order_seq_cst);
    req_event = atomic_load_explicit(&ring->shared->word[RING_REQ_EVENT], memory_order_relaxed);
    return ring->posted - req_event < slots;
}

uint32_t front_ring_post(struct front_ring *ring, const struct guest_memory *memory,
                         const uint32_t *references, size_t count,
                         const uint8_t *frame, size_t frame_len, struct front_gso gso,
                         struct tollmeander_report *report)
{
    if (ring->fault != FRONT_SOUND) {
        *report = (struct tollmeander_report){ .answer = TOLLMEANDER_HALTED };
        return report->answer;
    }
    tollmeander_transmit_post(ring->replies_read, ring->page, sizeof ring->page,
                              memory->grants, memory->grants_len,
                              memory->window, memory->window_len, references, count,
                              frame, frame_len, gso.given, gso.size, gso.type, report);
    if (report->answer == TOLLMEANDER_DONE) {
        *flight_at(ring, ring->posted) = (struct front_flight){
            .slots = (uint8_t)report->slots, .extras = gso.given != 0
        };
        publish_slots(ring, private_word(ring->page, RING_REQ_PROD));
        report->notify = backend_waits(ring, report->slots);
    }
    return report->answer;
}

/* Replies published and not read, by a rsp_prod that the backend may have made up. */
static uint32_t replies(struct front_ring *ring)
{
    /* The replies are read, and the pages used again, only after it. */
    return atomic_load_explicit(&ring->shared->word[RING_RSP_PROD], memory_order_acquire) -
           ring->replies_read;
}

static enum front_collected refuse(struct front_ring *ring, enum front_fault fault)
{
    ring->fault = fault;
    return FRONT_BROKEN;
}

static int32_t status_of(uint32_t reply)
{
    return (int16_t)(reply >> ID_BITS);
}

/* What is wrong with the reply to an extra, or to the data slot with an id. */
static enum front_fault judge(uint32_t reply, bool is_extra, uint32_t id)
{
    int32_t status = status_of(reply);

    if ((reply & ID_MASK) != (is_extra ? 0 : id))
        return FRONT_WRONG_ID;
    if (is_extra)
        return status == TOLLMEANDER_REPLY_NULL ? FRONT_SOUND : FRONT_WRONG_STATUS;
    return status == TOLLMEANDER_REPLY_OKAY || status == TOLLMEANDER_REPLY_ERROR ||
           status == TOLLMEANDER_REPLY_DROPPED ? FRONT_SOUND : FRONT_WRONG_STATUS;
}

/* Reads the replies of a packet in flight, which have all come, each word once. */
static enum front_collected read_packet(struct front_ring *ring, const struct front_flight *flight,
                                        struct front_packet *packet)
{
    uint32_t first = ring->replies_read;
    int32_t status = TOLLMEANDER_REPLY_OKAY;

    for (uint32_t place = 0; place < flight->slots; place++, ring->replies_read++) {
        uint32_t n = ring->replies_read;
        uint32_t at = ring_slot(TRANSMIT_SLOT_WORDS, n);
        uint32_t reply = atomic_load_explicit(&ring->shared->word[at], memory_order_relaxed);
        bool is_extra = flight->extras > 0 && place == EXTRA_PLACE;
        enum front_fault fault = judge(reply, is_extra, n & ID_MASK);

        if (fault != FRONT_SOUND)
            return refuse(ring, fault);
        if (!is_extra && status == TOLLMEANDER_REPLY_OKAY)
            status = status_of(reply);
    }
    *packet = (struct front_packet){
        .first = first, .slots = flight->slots, .pages = flight->slots - flight->extras,
        .status = status
    };
    return FRONT_PACKET;
}

enum front_collected front_ring_collect(struct front_ring *ring, struct front_packet *packet)
{
    const struct front_flight *flight = flight_at(ring, ring->replies_read);
    uint32_t come;

    if (ring->fault != FRONT_SOUND)
        return FRONT_BROKEN;
    come = replies(ring);
    if (come > ring->posted - ring->replies_read)
        return refuse(ring, FRONT_TOO_MANY_REPLIES);
    if (come == 0 || come < flight->slots)
        return FRONT_NONE;
    return read_packet(ring, flight, packet);
}

/* The slots of so many of the oldest packets in flight, or of all; at least one. */
static uint32_t awaited_slots(struct front_ring *ring, uint32_t packets)
{
    uint32_t in_flight = ring->posted - ring->replies_read;
    uint32_t slots = 0;

    for (uint32_t i = 0; slots < in_flight && (i == 0 || i < packets); i++)
        slots += flight_at(ring, ring->replies_read + slots)->slots;
    return slots > 0 ? slots : 1;
}

bool front_ring_await(struct front_ring *ring, uint32_t packets)
{
    uint32_t slots;

    if (ring->fault != FRONT_SOUND)
        return false;
    slots = awaited_slots(ring, packets);
    store(ring, RING_RSP_EVENT, ring->replies_read + slots);
    /* Either we read the rsp_prod that the backend has just written, or it reads our rsp_event. */
    atomic_thread_fence(memory_order_seq_cst);
    return replies(ring) < slots;
}
