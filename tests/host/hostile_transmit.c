/*
 * A guest that keeps rewriting transmit slots which it has published, while the host takes packets
 * and while it holds them. Every frame handed over must be the bytes of one version of each of its
 * slots, with that version's flags and gso in the report. The reply has that version's id, and the
 * packet's status, which the device gives later, in any order. All versions are good, so every
 * packet must be done.
 *
 * Of some packets the guest publishes the first slots, waits until the host has seen them (it
 * publishes req_event), ruins them and publishes the rest: the host must have its own copy.
 */
#include <inttypes.h>
#include <sched.h>
#include <stdbool.h>
#include <stdint.h>
#include <stdio.h>
#include <string.h>

#include "clock.h"
#include "host_side.h"
#include "run_options.h"
#include "slot_bits.h"
#include "slot_ring.h"
#include "threads.h"
#include "versions.h"

enum {
    FIRST_COUNTER = -777,
    MOST_DATA_SLOTS = 4,
    SLOTS_BEFORE_A_WAIT = 64,
    REWRITES_AT_A_TIME = 64
};

/* What packet number k is made of, whatever the versions of its slots. */
struct shape {
    enum rewriting rewriting;
    uint32_t data_slots;
    uint32_t extras;        /* 0 or 1 */
    bool ruined;            /* its first slots are ruined once the host has seen them */
};

/* A slot that the guest has published. */
struct published_slot {
    struct shape shape;
    uint32_t place;
    bool ruined;
};

static struct ring_page page;
static struct version_pages pages;
static struct slot_ring front;
static struct published_slot slots[TOLLMEANDER_RING_SLOTS];
static struct rng guest_rng;
static uint64_t rewrites;
static bool guest_stalled;
static struct run_options options;
static struct host_side host;
static uint32_t expected[TOLLMEANDER_RING_SLOTS];   /* replies to what is held */
static uint64_t packets, wrong_frames, wrong_replies;

static struct shape shape_of(uint64_t number)
{
    struct shape shape = {
        .rewriting = number / 512 % 2 == 0 ? ONE_WORD : EVERY_WORD,
        .data_slots = 1 + (uint32_t)(number % MOST_DATA_SLOTS),
        .extras = number % 3 == 0,
        .ruined = number % 16 == 7
    };

    return shape;
}

static uint32_t slots_of(struct shape shape)
{
    return shape.data_slots + shape.extras;
}

/* The fields of a data slot that have versions. Every choice of them makes a good packet. */
static uint32_t offset_of(uint32_t n, uint32_t version)
{
    return 8 * (n % 16) + 512 * version;
}

static uint32_t total_of(uint32_t version)
{
    return 1000 + 16 * version;
}

static uint32_t part_of(uint32_t n, uint32_t version)
{
    return 40 + n % 5 + 8 * version;
}

static uint32_t gso_size_of(uint32_t version)
{
    return 1400 + version;
}

static uint32_t gso_type_of(uint32_t version)
{
    return 1 + version % 2;
}

static uint32_t extra_word(uint32_t word, uint32_t version)
{
    if (word == 0)
        return EXTRA_TYPE_GSO | gso_size_of(version) << 16;
    return word == 1 ? gso_type_of(version) : version;
}

/* Word of the data slot at a place of a packet. */
static uint32_t data_word(struct shape shape, uint32_t place, uint32_t n, uint32_t word,
                          uint32_t version)
{
    uint32_t flags = place == 0 ? version : 0;

    if (word == 0)
        return version_gref(n, version);
    if (word == 2)
        return version_id(n, version) | (place == 0 ? total_of(version)
                                                    : part_of(n, version)) << 16;
    if (place + 1 < slots_of(shape) && shape.data_slots > 1)
        flags |= MORE_DATA;
    if (place == 0 && shape.extras > 0)
        flags |= EXTRA_FOLLOWS;
    return offset_of(n, version) | flags << 16;
}

static uint32_t slot_word(struct shape shape, uint32_t place, uint32_t n, uint32_t word,
                          uint32_t version)
{
    return shape.extras > 0 && place == 1 ? extra_word(word, version)
                                          : data_word(shape, place, n, word, version);
}

static void fill_pages(uint64_t seed)
{
    struct rng rng = rng_of(seed, 1);

    version_pages_grant(&pages);
    for (uint32_t i = 0; i < sizeof pages.window; i++)
        pages.window[i] = (uint8_t)rng_next(&rng);
}

/* The guest. */

static void store_word(uint32_t n, uint32_t word, uint32_t value)
{
    atomic_store_explicit(&page.word[ring_slot(TRANSMIT_SLOT_WORDS, n) + word], value,
                          memory_order_relaxed);
}

/* Puts another version into a word of a slot that may have versions; a ruined slot stays so. */
static void rewrite(uint32_t n)
{
    const struct published_slot *slot = &slots[n % TOLLMEANDER_RING_SLOTS];
    uint32_t word = rng_below(&guest_rng, TRANSMIT_SLOT_WORDS);
    uint32_t count = version_count(slot->shape.rewriting, n, word, TRANSMIT_SLOT_WORDS);

    if (slot->ruined)
        return;
    store_word(n, word, slot_word(slot->shape, slot->place, n, word,
                                  rng_below(&guest_rng, count)));
    rewrites++;
}

static void rewrite_some(void)
{
    uint32_t answered = atomic_load_explicit(&page.word[RING_RSP_PROD], memory_order_acquire);
    uint32_t in_flight = front.published - answered;

    for (uint32_t i = 0; in_flight > 0 && i < REWRITES_AT_A_TIME; i++)
        rewrite(answered + rng_below(&guest_rng, in_flight));
    if (in_flight == 0 || rng_below(&guest_rng, 8) == 0)
        sched_yield();
}

/* Rewrites slots until a word of the page's header has a value. */
static void rewrite_until(uint32_t header_word, uint32_t value)
{
    double start = clock_seconds();

    while (atomic_load_explicit(&page.word[header_word], memory_order_acquire) != value) {
        rewrite_some();
        if (clock_seconds() - start > STALL_MS / 1000.0) {
            guest_stalled = true;
            return;
        }
    }
}

static void publish(uint32_t count)
{
    if (slot_ring_publish(&front, count))
        channel_notify(&host.events);
}

/* Makes a slot one that would halt the ring or be refused. */
static void ruin(uint32_t n)
{
    slots[n % TOLLMEANDER_RING_SLOTS].ruined = true;
    store_word(n, 0, 0);
    store_word(n, 1, UINT32_MAX);
    store_word(n, 2, POISON_ID | 1u << 16);
}

/* Publishes the first slots of a packet, and ruins them when the host has seen them. */
static void publish_and_ruin(uint32_t first, uint32_t count)
{
    publish(count);
    rewrite_until(RING_REQ_EVENT, front.published + 1);
    for (uint32_t n = first; n != front.published; n++)
        ruin(n);
}

static void post_packet(uint64_t number)
{
    struct shape shape = shape_of(number);
    uint32_t first = front.written;

    for (uint32_t place = 0; place < slots_of(shape); place++) {
        uint32_t n = front.written;
        uint32_t slot[TRANSMIT_SLOT_WORDS];

        for (uint32_t word = 0; word < TRANSMIT_SLOT_WORDS; word++)
            slot[word] = slot_word(shape, place, n, word, 0);
        slots[n % TOLLMEANDER_RING_SLOTS] = (struct published_slot){ shape, place, false };
        slot_ring_write(&front, slot);
    }
    if (shape.ruined && slots_of(shape) > 1)
        publish_and_ruin(first, slots_of(shape) - 1);
    publish(front.written - front.published);
}

static void run_guest(void)
{
    for (uint64_t number = 0; number < options.packets && !guest_stalled; number++) {
        bool is_last = number + 1 == options.packets;

        post_packet(number);
        if (front.published - front.replied >= SLOTS_BEFORE_A_WAIT || is_last) {
            rewrite_until(RING_RSP_PROD, front.published);
            front.replied = front.published;
        } else {
            rewrite_some();
        }
    }
}

/* The host. */

/* A word of slot n in the private page: the guest may have written over the one in its own. */
static uint32_t private_slot_word(uint32_t n, uint32_t word)
{
    return private_word(host.transmit.ring.page, ring_slot(TRANSMIT_SLOT_WORDS, n) + word);
}

/* The id that a held slot was taken with. */
static uint32_t taken_id(uint32_t n)
{
    return private_slot_word(n, 2) & 0xFFFF;
}

/* The version of its last word that a slot was taken in, by its id; VERSIONS if none. */
static uint32_t taken_version(struct shape shape, uint32_t n)
{
    uint32_t count = version_count(shape.rewriting, n, 2, TRANSMIT_SLOT_WORDS);
    uint32_t version = 0;

    while (version < count && taken_id(n) != version_id(n, version))
        version++;
    return version < count ? version : VERSIONS;
}

/* Whether a part of the frame is of a version of its slot; for the first slot by its flags too. */
static bool is_part(struct shape shape, uint32_t n, const uint8_t *part, uint32_t size,
                    const struct tollmeander_report *report)
{
    uint32_t grefs = version_count(shape.rewriting, n, 0, TRANSMIT_SLOT_WORDS);
    uint32_t offsets = version_count(shape.rewriting, n, 1, TRANSMIT_SLOT_WORDS);

    for (uint32_t i = 0; i < grefs * offsets; i++) {
        uint32_t version = i % offsets;
        const uint8_t *bytes = version_page(&pages, n, i / offsets) + offset_of(n, version);
        bool flags = report == NULL || (report->checksum_blank == (version & 1) &&
                                        report->data_validated == version >> 1);

        if (flags && memcmp(part, bytes, size) == 0)
            return true;
    }
    return false;
}

/* Whether the gso reported is of a version of the packet's extra, if it has one. */
static bool is_gso(struct shape shape, uint32_t n, const struct tollmeander_report *report)
{
    uint32_t sizes = version_count(shape.rewriting, n, 0, TRANSMIT_SLOT_WORDS);
    uint32_t types = version_count(shape.rewriting, n, 1, TRANSMIT_SLOT_WORDS);
    bool size = false, type = false;

    if (shape.extras == 0)
        return report->gso_size == 0 && report->gso_type == 0;
    for (uint32_t version = 0; version < sizes; version++)
        size |= report->gso_size == gso_size_of(version);
    for (uint32_t version = 0; version < types; version++)
        type |= report->gso_type == gso_type_of(version);
    return size && type;
}

/* The part of each data slot by the version taken; false if an id is of no version. */
static bool find_parts(struct shape shape, uint32_t first, uint32_t *part)
{
    uint32_t version = taken_version(shape, first);
    uint32_t later = 0;

    if (version == VERSIONS)
        return false;
    part[0] = total_of(version);
    for (uint32_t i = 1; i < shape.data_slots; i++) {
        uint32_t n = first + shape.extras + i;

        version = taken_version(shape, n);
        if (version == VERSIONS)
            return false;
        part[i] = part_of(n, version);
        later += part[i];
    }
    part[0] -= later;
    return true;
}

/* Whether a frame and its report are of one version of each of the packet's slots. */
static bool is_right(uint32_t first, const uint8_t *frame, const struct tollmeander_report *report)
{
    struct shape shape = shape_of(packets);
    uint32_t part[MOST_DATA_SLOTS];
    uint32_t at = 0;

    if (report->slots != slots_of(shape) || !find_parts(shape, first, part))
        return false;
    for (uint32_t i = 0; i < shape.data_slots; i++) {
        uint32_t n = i == 0 ? first : first + shape.extras + i;

        if (!is_part(shape, n, frame + at, part[i], i == 0 ? report : NULL))
            return false;
        at += part[i];
    }
    return at == report->total && is_gso(shape, first + 1, report);
}

static int32_t status_of(uint64_t number)
{
    return number % 5 == 3 ? TOLLMEANDER_REPLY_ERROR :
           number % 5 == 4 ? TOLLMEANDER_REPLY_DROPPED : TOLLMEANDER_REPLY_OKAY;
}

/* Notes the replies that the slots of the packet just taken are to get. */
static void expect_replies(uint32_t first)
{
    struct shape shape = shape_of(packets);

    for (uint32_t place = 0; place < slots_of(shape); place++) {
        uint32_t n = first + place;
        bool is_extra = shape.extras > 0 && place == 1;

        expected[n % TOLLMEANDER_RING_SLOTS] =
            is_extra ? (uint32_t)TOLLMEANDER_REPLY_NULL << 16
                     : taken_id(n) | (uint32_t)status_of(packets) << 16;
    }
}

/* Finishes what is confirmed, and checks the replies that leave. */
static void finish_confirmed(void)
{
    uint32_t n = host.transmit.replied;

    host_finish_confirmed(&host);
    for (; n != host.transmit.replied; n++)
        wrong_replies += private_slot_word(n, 0) != expected[n % TOLLMEANDER_RING_SLOTS];
}

/* One turn of the host's loop. */
static void serve(uint8_t *frame)
{
    struct tollmeander_report report;
    uint32_t first = host.transmit.ring.consumed;
    uint32_t answer = host_take(&host, frame, TOLLMEANDER_FRAME_MAX, &report);

    if (!host_is_done(&host, answer, host_may_sleep(answer)))
        return;
    if (!is_right(first, frame, &report))
        wrong_frames++;
    expect_replies(first);
    host_hand_over(&host, &report, status_of(packets));
    packets++;
}

static void run_host(void)
{
    static uint8_t frame[TOLLMEANDER_FRAME_MAX];

    while (packets < options.packets && host_goes_on(&host)) {
        serve(frame);
        finish_confirmed();
    }
    while (host_holds(&host) && host_goes_on(&host)) {
        channel_sleep(&host.events);
        finish_confirmed();
    }
    device_thread_close(&host.device);
}

int main(int argc, char **argv)
{
    struct guest_memory memory = version_pages_memory(&pages);

    options = run_options_read(argc, argv);
    fill_pages(options.seed);
    host_open(&host, &memory, (uint32_t)FIRST_COUNTER, options.in_steps);
    guest_rng = rng_of(options.seed, 2);
    slot_ring_open(&front, &page, TRANSMIT_SLOT_WORDS, (uint32_t)FIRST_COUNTER);
    host_open_transmit(&host, &page, (uint32_t)FIRST_COUNTER, options.seed);
    threads_run(run_guest, run_host);
    printf("hostile transmit: %" PRIu64 " packets, %" PRIu64 " slots rewritten, %" PRIu64
           " wrong frames, %" PRIu64 " wrong replies, %" PRIu64 " finished behind others, %" PRIu64
           " unexpected answers; %s\n", packets, rewrites, wrong_frames, wrong_replies, host.behind,
           host.unexpected, guest_stalled || host.events.stalled ? "a stall" : "no stall");
    return packets == options.packets && wrong_frames == 0 && wrong_replies == 0 &&
           host_goes_on(&host) && !guest_stalled ? 0 : 1;
}
