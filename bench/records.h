/*
 * The list of held packets in plain C: one pass over the records and a walk along an
 * index say whether the list is as it must be, which record is free, and where the
 * packet stands that begins at a slot.
 */
#ifndef BENCH_RECORDS_H
#define BENCH_RECORDS_H

#include <stdbool.h>
#include <string.h>

#include "tollmeander.h"

/* The records that a call is lent, and what was found in them. */
struct records {
    struct tollmeander_held *list;
    uint32_t count;
    uint32_t first_free;        /* count if none is */
    uint32_t held_slots;        /* between the two counters */
    /* For each of these slots 0, or the slots of the packet that begins there. */
    uint8_t slots_at[TOLLMEANDER_RING_SLOTS];
    /* And the place of that packet's record. */
    uint8_t place_at[TOLLMEANDER_RING_SLOTS];
};

static inline bool is_status(int32_t status)
{
    return status == TOLLMEANDER_REPLY_OKAY || status == TOLLMEANDER_REPLY_ERROR ||
           status == TOLLMEANDER_REPLY_DROPPED;
}

/* Whether a packet has these counts. */
static inline bool is_count(uint32_t slots, uint32_t extras)
{
    return extras < slots && extras <= TOLLMEANDER_PACKET_EXTRAS_MAX &&
           slots - extras <= TOLLMEANDER_PACKET_DATA_MAX;
}

/* Whether a record in use may begin at so many slots from the oldest packet's first one. */
static inline bool fits(const struct tollmeander_held *held, uint32_t offset, uint32_t held_slots)
{
    return offset < held_slots && held->slots <= held_slots - offset &&
           is_count(held->slots, held->extras) && is_status(held->status) &&
           (offset != 0 || held->finished == 0);
}

/* Enters a record in use into the index, if it fits and no other begins at its slot. */
static inline bool enter(struct records *records, uint32_t place, uint32_t replied)
{
    const struct tollmeander_held *held = &records->list[place];
    uint32_t offset = held->ticket - replied;

    if (!fits(held, offset, records->held_slots) || records->slots_at[offset] != 0)
        return false;
    records->slots_at[offset] = (uint8_t)held->slots;
    records->place_at[offset] = (uint8_t)place;
    return true;
}

/*
 * Enters all records in use; whether each could be, and they have as many slots as
 * are held. From the last record to the first: the free one met last is the first.
 * Left to itself, gcc lays the way of a free record out of line.
 */
static inline bool enter_all(struct records *records, uint32_t replied)
{
    uint32_t first_free = records->count;
    uint32_t slots = 0;

    for (uint32_t i = records->count; i-- > 0;) {
        if (__builtin_expect(records->list[i].slots == 0, true)) {
            first_free = i;
            continue;
        }
        if (!enter(records, i, replied))
            return false;
        slots += records->list[i].slots;
    }
    records->first_free = first_free;
    return slots == records->held_slots;
}

/* Whether a packet begins wherever the one before it ends. */
static inline bool is_gapless(const struct records *records)
{
    uint32_t at = 0;

    while (at < records->held_slots) {
        uint32_t slots = records->slots_at[at];

        if (slots == 0)
            return false;
        at += slots;
    }
    return true;
}

/* Reads a list; whether it is one that the calls leave. */
static inline bool read_records(struct records *records, struct tollmeander_held *list,
                                size_t count, uint32_t consumed, uint32_t replied)
{
    uint32_t held_slots = consumed - replied;

    if (count > TOLLMEANDER_HELD_MAX || held_slots > TOLLMEANDER_RING_SLOTS)
        return false;
    records->list = list;
    records->count = (uint32_t)count;
    records->held_slots = held_slots;
    memset(records->slots_at, 0, held_slots);
    return enter_all(records, replied) && is_gapless(records);
}

static inline bool is_full(const struct records *records)
{
    return records->first_free == records->count;
}

/* The record of the packet that begins at an offset, or NULL. */
static inline struct tollmeander_held *find_record(const struct records *records, uint32_t offset)
{
    if (offset >= records->held_slots || records->slots_at[offset] == 0)
        return NULL;
    return &records->list[records->place_at[offset]];
}

#endif
