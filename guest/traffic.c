#include "traffic.h"

#include <string.h>

#include "rng.h"
#include "slot_bits.h"

enum {
    MOST_EXTRAS = TOLLMEANDER_PACKET_EXTRAS_MAX,
    MOST_SPARE_SLOTS = 3,
    FAULTY_PART = 1000,
    NUMBER_BYTES = sizeof(uint64_t)
};

void frame_pool_fill(struct frame_pool *pool, uint64_t seed)
{
    struct rng rng = rng_of(seed, 0);

    for (uint32_t i = 0; i < POOL_BYTES; i++)
        pool->bytes[i] = (uint8_t)rng_next(&rng);
}

static enum fault fault_of(const struct traffic *traffic, uint64_t number)
{
    uint64_t past = number - traffic->fault_first;

    if (traffic->fault == FAULT_NONE || number < traffic->fault_first)
        return FAULT_NONE;
    if (traffic->fault_step == 0 ? past != 0 : past % traffic->fault_step != 0)
        return FAULT_NONE;
    return traffic->fault;
}

uint64_t traffic_next_good(const struct traffic *traffic, uint64_t number)
{
    while (fault_of(traffic, number) != FAULT_NONE)
        number++;
    return number;
}

/* Many small frames, some large, a few of the largest. */
static uint32_t pick_length(struct rng *rng)
{
    static const uint32_t longest[] = { 200, 200, 200, 200, 200, 200, 1514, 1514, 1514, 9000 };
    uint32_t largest = longest[rng_below(rng, 10)];

    if (rng_below(rng, 64) == 0)
        largest = TOLLMEANDER_FRAME_MAX;
    if (rng_below(rng, 512) == 0)
        return TOLLMEANDER_FRAME_MAX;
    return TOLLMEANDER_FRAME_MIN + rng_below(rng, largest - TOLLMEANDER_FRAME_MIN + 1);
}

static void pick_extras(struct packet *packet, struct rng *rng)
{
    if (rng_below(rng, 4) != 0)
        return;
    packet->extras = 1 + rng_below(rng, MOST_EXTRAS);
    packet->gso_size = 1 + rng_below(rng, 9000);
    packet->gso_type = 1 + rng_below(rng, 2);
}

/* Moves bytes from one part to another, as far as both stay within a page. */
static void shift_bytes(struct packet *packet, struct rng *rng)
{
    uint32_t *from = &packet->part[rng_below(rng, packet->data_slots)];
    uint32_t *to = &packet->part[rng_below(rng, packet->data_slots)];
    uint32_t most = TOLLMEANDER_PAGE_SIZE - *to;
    uint32_t moved;

    if (most > *from)
        most = *from;
    moved = rng_below(rng, 4) == 0 ? most : rng_below(rng, most + 1);
    *from -= moved;
    *to += moved;
}

/* The pages that a frame fills. */
static uint32_t pages_of(uint32_t length)
{
    return (length + TOLLMEANDER_PAGE_SIZE - 1) / TOLLMEANDER_PAGE_SIZE;
}

static void pick_parts(struct packet *packet, struct rng *rng)
{
    uint32_t need = pages_of(packet->length);
    uint32_t spare = TOLLMEANDER_PACKET_DATA_MAX - need;
    uint32_t left = packet->length;

    if (spare > MOST_SPARE_SLOTS)
        spare = MOST_SPARE_SLOTS;
    packet->data_slots = need + (rng_below(rng, 2) == 0 ? 0 : rng_below(rng, spare + 1));
    for (uint32_t i = 0; i < packet->data_slots; i++) {
        packet->part[i] = left / (packet->data_slots - i);
        left -= packet->part[i];
    }
    for (uint32_t i = 1; i < packet->data_slots; i++)
        shift_bytes(packet, rng);
    for (uint32_t i = 0; i < packet->data_slots; i++)
        packet->offset[i] = rng_below(rng, TOLLMEANDER_PAGE_SIZE - packet->part[i] + 1);
}

/* A data slot for each page that the frame fills, one extra at most, no flags. */
static void make_plain(struct packet *packet)
{
    uint32_t left = packet->length;

    packet->flags = 0;
    packet->extras = packet->extras > 0;
    packet->data_slots = pages_of(packet->length);
    for (uint32_t i = 0; i < packet->data_slots; i++) {
        packet->part[i] = left < TOLLMEANDER_PAGE_SIZE ? left : TOLLMEANDER_PAGE_SIZE;
        left -= packet->part[i];
    }
}

static void make_faulty(struct packet *packet)
{
    packet->length = FAULTY_SLOTS * FAULTY_PART;
    packet->data_slots = FAULTY_SLOTS;
    for (uint32_t i = 0; i < FAULTY_SLOTS; i++)
        packet->part[i] = FAULTY_PART;
}

void traffic_packet(const struct traffic *traffic, uint64_t number, struct packet *packet)
{
    struct rng rng = rng_of(traffic->seed, number);

    memset(packet, 0, sizeof *packet);
    packet->number = number;
    packet->fault = fault_of(traffic, number);
    if (packet->fault != FAULT_NONE) {
        make_faulty(packet);
        return;
    }
    packet->length = pick_length(&rng);
    packet->flags = rng_below(&rng, 4) & (CHECKSUM_BLANK | DATA_VALIDATED);
    pick_extras(packet, &rng);
    if (traffic->plain)
        make_plain(packet);
    else
        pick_parts(packet, &rng);
}

/* The pool's bytes that a frame is cut from. */
static const uint8_t *frame_source(const struct traffic *traffic, uint64_t number)
{
    struct rng rng = rng_of(~traffic->seed, number);

    return traffic->pool->bytes + rng_below(&rng, POOL_BYTES - TOLLMEANDER_FRAME_MAX);
}

void traffic_frame(const struct traffic *traffic, uint64_t number, uint32_t length, uint8_t *frame)
{
    memcpy(frame, frame_source(traffic, number), length);
    memcpy(frame, &number, NUMBER_BYTES);
}

bool traffic_is_frame(const struct traffic *traffic, uint64_t number, uint32_t length,
                      const uint8_t *frame)
{
    const uint8_t *source = frame_source(traffic, number);

    return memcmp(frame, &number, NUMBER_BYTES) == 0 &&
           memcmp(frame + NUMBER_BYTES, source + NUMBER_BYTES, length - NUMBER_BYTES) == 0;
}
