/*
 * Takes, finishes and connections in random order, on a ring whose guest posts packets and
 * scribbles over what it has posted, held against a model of the packets. After each call the
 * guest's page must be, word for word, the one that the model gives, and so must the report.
 */
#ifndef RANDOM_CALLS_H
#define RANDOM_CALLS_H

#include <stdbool.h>
#include <stdint.h>
#include <string.h>

#include "back_ring.h"
#include "back_scene.h"
#include "check.h"
#include "rng.h"
#include "slot_bits.h"

enum { MOST_DATA = 3, MODEL_PART = 20, RANDOM_CALLS = 200000, FIRST_STATUS = -2, STATUSES = 3 };

/* A packet that is posted: data slots, with an extra behind the first if it has one. */
struct model_packet {
    uint32_t first, slots;
    bool has_extra, is_spoiled, is_finished;
    int32_t status;
    uint16_t id[MOST_DATA + 1];
};

/*
 * The packets of a connection, numbered in the order of posting: those before published are
 * replied to on the guest's page, those before replied on the private page, those before taken are
 * taken.
 */
static struct {
    struct model_packet packet[TOLLMEANDER_RING_SLOTS];     /* number k at k % 256 */
    uint32_t published, replied, taken, posted;
    uint32_t next_slot, sent_slots;     /* counters: behind the last posted; of published replies */
    bool is_halted;
    bool is_slow;                       /* the device: the ring fills up */
    struct back_ticket old;             /* of an earlier connection */
} model;

static struct back_transmit random_end;
static struct rng random_rng;

/* What must have come about: these answers, and a ring that is full of held packets. */
static uint32_t answered[TOLLMEANDER_BAD_RECORDS + 1], full_of_held;

static uint32_t pick(uint32_t bound)
{
    return rng_below(&random_rng, bound);
}

static struct model_packet *model_packet(uint32_t number)
{
    return &model.packet[number % TOLLMEANDER_RING_SLOTS];
}

/* Packets leave from the oldest on, as far as they are finished; the slots that leave. */
static uint32_t model_leave(void)
{
    uint32_t slots = 0;

    for (; model.replied != model.taken && model_packet(model.replied)->is_finished;
         model.replied++)
        slots += model_packet(model.replied)->slots;
    return slots;
}

static void expect_word(uint32_t at, uint32_t value)
{
    atomic_store_explicit(&before.word[at], value, memory_order_relaxed);
}

/* The replies that wait come to the page; whether the guest is to be notified. */
static bool model_publish(void)
{
    uint32_t was = model.sent_slots;

    for (; model.published != model.replied; model.published++) {
        const struct model_packet *packet = model_packet(model.published);

        for (uint32_t place = 0; place < packet->slots; place++, model.sent_slots++)
            expect_word(ring_slot(TRANSMIT_SLOT_WORDS, model.sent_slots),
                        packet->has_extra && place == 1
                            ? (uint32_t)TOLLMEANDER_REPLY_NULL << 16
                            : packet->id[place] | (uint32_t)packet->status << 16);
    }
    if (was != model.sent_slots)
        expect_word(RING_RSP_PROD, model.sent_slots);
    return model.sent_slots - word(RING_RSP_EVENT) < model.sent_slots - was;
}

static bool page_is_as_expected(void)
{
    return memcmp(&page, &before, sizeof page) == 0;
}

static void random_connection(void)
{
    uint32_t counter = pick(2) == 0 ? 0u - pick(3) : (uint32_t)rng_next(&random_rng);
    uint32_t records = pick(4) == 0 ? TOLLMEANDER_HELD_MAX : 1 + pick(6);

    if (model.taken != model.replied)
        model.old = (struct back_ticket){ random_end.connection,
                                          model_packet(model.replied)->first };
    back_ring_close(&random_end.ring);
    memset(&model.packet, 0, sizeof model.packet);
    model.published = model.replied = model.taken = model.posted = 0;
    model.next_slot = model.sent_slots = counter;
    model.is_halted = false;
    model.is_slow = pick(2) == 0;
    set_word(RING_REQ_PROD, counter);
    CHECK(back_transmit_open(&random_end, &page, counter, records));
}

/* Writes the slot at a place of a packet, with an id that the guest chooses. */
static void random_slot(struct model_packet *packet, uint32_t place)
{
    uint32_t at = ring_slot(TRANSMIT_SLOT_WORDS, packet->first + place);
    bool is_last = place + 1 == packet->slots;
    uint32_t data = packet->slots - packet->has_extra;
    uint32_t flags = data > 1 && !is_last ? MORE_DATA : 0;

    packet->id[place] = (uint16_t)rng_next(&random_rng);
    if (packet->has_extra && place == 1) {
        set_word(at, EXTRA_TYPE_GSO | 1u << 16);
        set_word(at + 1, 1);
        return;
    }
    if (place == 0 && packet->has_extra)
        flags |= EXTRA_FOLLOWS;
    set_word(at, packet->is_spoiled && is_last ? FREE_GREF : GREF);
    set_word(at + 1, flags << 16);
    set_word(at + 2, packet->id[place] | (place == 0 ? data * MODEL_PART : MODEL_PART) << 16);
}

/* The guest posts a packet, if it has room, and the host looks. */
static void random_post(void)
{
    struct model_packet *packet = model_packet(model.posted);
    uint32_t data = 1 + pick(MOST_DATA);
    bool has_extra = pick(3) == 0;

    if (model.is_halted || model.published != model.replied)
        return;
    if (model.next_slot - model.sent_slots + data + has_extra > TOLLMEANDER_RING_SLOTS) {
        full_of_held += model.taken == model.posted;
        return;
    }
    *packet = (struct model_packet){
        .first = model.next_slot, .slots = data + has_extra, .has_extra = has_extra,
        .is_spoiled = (data > 1 || !has_extra) && pick(8) == 0
    };
    for (uint32_t place = 0; place < packet->slots; place++)
        random_slot(packet, place);
    model.posted++;
    model.next_slot += packet->slots;
    set_word(RING_REQ_PROD, model.next_slot);
    keep_page();
    back_ring_look(&random_end.ring);
    CHECK(page_is_as_expected());
}

/*
 * The guest writes anything into all slots, and lowers req_prod for a while, but not behind what is
 * consumed: all that it posted was copied.
 */
static void random_scribble(void)
{
    uint32_t posted = model.next_slot - random_end.ring.consumed;

    for (uint32_t at = RING_FIRST_SLOT; at < RING_WORDS; at++)
        set_word(at, (uint32_t)rng_next(&random_rng));
    set_word(RING_RSP_EVENT, model.sent_slots + pick(8));
    if (model.is_halted)
        return;
    set_word(RING_REQ_PROD, model.next_slot - pick(posted + 1));
    back_ring_look(&random_end.ring);
    set_word(RING_REQ_PROD, model.next_slot);
}

/* What a take must answer. The model follows it. */
static uint32_t model_take(void)
{
    struct model_packet *packet = model_packet(model.taken);

    if (model.is_halted)
        return TOLLMEANDER_HALTED;
    if (model.taken == model.posted)
        return TOLLMEANDER_EMPTY;
    if (model.taken - model.replied == random_end.records)
        return TOLLMEANDER_NO_RECORD;
    model.taken++;
    packet->is_finished = packet->is_spoiled;
    packet->status = packet->is_spoiled ? TOLLMEANDER_REPLY_ERROR : TOLLMEANDER_REPLY_OKAY;
    model_leave();
    return packet->is_spoiled ? TOLLMEANDER_SPOILED : TOLLMEANDER_DONE;
}

static void random_take(void)
{
    static uint8_t frame[MOST_DATA * MODEL_PART];
    const struct model_packet *packet = model_packet(model.taken);
    struct tollmeander_report report;
    uint32_t answer;

    keep_page();
    back_transmit_take(&random_end, &granted, frame, sizeof frame, &report);
    answer = model_take();
    answered[answer]++;
    CHECK(report.answer == answer && report.notify == model_publish());
    if (answer == TOLLMEANDER_DONE)
        CHECK(report.ticket == packet->first && report.slots == packet->slots);
    if (answer == TOLLMEANDER_EMPTY)
        expect_word(RING_REQ_EVENT, model.next_slot + 1);
    CHECK(page_is_as_expected());
}

/* The ticket of a packet that is held, and its number; at times of none: number is then taken. */
static struct back_ticket random_ticket(uint32_t *number)
{
    uint32_t held = model.taken - model.replied;
    uint32_t kind = pick(16);

    *number = model.taken;
    if (kind == 0)
        return model.old;
    if (kind == 1 || held == 0)
        return (struct back_ticket){ random_end.connection, model.next_slot + pick(9) };
    *number = model.replied + pick(held);
    return (struct back_ticket){ random_end.connection, model_packet(*number)->first };
}

/* Finishes a packet, at once, or in steps and then publishes it sooner or later. */
static void random_finish(void)
{
    uint32_t number;
    struct back_ticket ticket = random_ticket(&number);
    struct model_packet *packet = model_packet(number);
    int32_t status = FIRST_STATUS + (int32_t)pick(STATUSES + (pick(16) == 0));
    bool is_good = number != model.taken && !packet->is_finished &&
                   status <= TOLLMEANDER_REPLY_OKAY;
    bool in_steps = pick(2) == 0;
    struct tollmeander_report report;

    keep_page();
    (in_steps ? back_transmit_finish_copied : back_transmit_finish)(&random_end, ticket, status,
                                                                    &report);
    CHECK(report.answer == (is_good ? TOLLMEANDER_DONE : TOLLMEANDER_BAD_TICKET));
    if (is_good) {
        packet->is_finished = true;
        packet->status = status;
    } else {
        answered[TOLLMEANDER_BAD_TICKET]++;
    }
    CHECK(report.slots == model_leave());
    CHECK(report.notify == (is_good && !in_steps && model_publish()));
    CHECK(page_is_as_expected());
}

static void random_publish(void)
{
    keep_page();
    CHECK(back_ring_publish(&random_end.ring) == model_publish());
    CHECK(page_is_as_expected());
}

/* The guest posts too much, or takes back what is consumed: a halt. What is held is still there. */
static void random_overflow(void)
{
    struct tollmeander_report report;
    uint8_t frame[1];

    random_publish();
    if (model.is_halted)
        return;
    set_word(RING_REQ_PROD, pick(2) == 0 ? model.sent_slots + TOLLMEANDER_RING_SLOTS + 1 + pick(300)
                                         : random_end.ring.consumed - 1 - pick(300));
    keep_page();
    CHECK(back_transmit_take(&random_end, &granted, frame, sizeof frame, &report) ==
          TOLLMEANDER_OVERFLOW);
    CHECK(page_is_as_expected());
    answered[TOLLMEANDER_OVERFLOW]++;
    model.is_halted = true;
}

static void random_call(void)
{
    uint32_t choice = pick(1000);

    if (choice < 300)
        random_post();
    else if (choice < 600)
        random_take();
    else if (choice < (model.is_slow ? 620 : 900))
        random_finish();
    else if (choice < 960)
        random_publish();
    else if (choice < 996)
        random_scribble();
    else if (choice < 997)
        random_overflow();
    else
        random_connection();
}

static void random_calls(uint64_t seed)
{
    static const uint32_t must[] = {
        TOLLMEANDER_DONE, TOLLMEANDER_HALTED, TOLLMEANDER_OVERFLOW, TOLLMEANDER_EMPTY,
        TOLLMEANDER_SPOILED, TOLLMEANDER_NO_RECORD, TOLLMEANDER_BAD_TICKET
    };

    random_rng = rng_of(seed, 0);
    open_pages();
    litter_page();
    random_connection();
    for (uint32_t i = 0; i < RANDOM_CALLS && checks_failed == 0; i++)
        random_call();
    for (uint32_t i = 0; i < sizeof must / sizeof must[0]; i++)
        CHECK(answered[must[i]] > 0);
    CHECK(full_of_held > 0);
}

#endif
