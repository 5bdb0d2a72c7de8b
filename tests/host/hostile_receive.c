/*
 * A guest that keeps rewriting receive requests which it has posted, while the host puts frames.
 * Every piece of a frame must stand in the page of one version of its request and nowhere else,
 * and the reply must have the id of a version. All versions are good, so every frame must be
 * delivered.
 *
 * Now and then the guest waits until the host has seen all requests and wants more (it publishes
 * req_event), ruins them and posts more: the host must have its own copy.
 */
#include <inttypes.h>
#include <sched.h>
#include <stdbool.h>
#include <stdint.h>
#include <stdio.h>
#include <string.h>

#include "host_side.h"
#include "run_options.h"
#include "slot_bits.h"
#include "slot_ring.h"
#include "threads.h"
#include "versions.h"

enum {
    FIRST_COUNTER = -777,
    MOST_PIECES = 4,
    MOST_REQUESTS = 24,     /* posted and not replied to */
    REWRITES_AT_A_TIME = 64
};

static struct ring_page page;
static struct version_pages pages;
static struct slot_ring front;
static bool ruined[TOLLMEANDER_RING_SLOTS];
static struct rng guest_rng;
static uint64_t rewrites, ruined_requests;
static _Atomic bool finished;
static struct run_options options;
static struct host_side host;
static uint64_t frames, wrong_frames;

static enum rewriting rewriting_of(uint32_t n)
{
    return n / 512 % 2 == 0 ? ONE_WORD : EVERY_WORD;
}

static uint32_t request_word(uint32_t n, uint32_t word, uint32_t version)
{
    return word == 0 ? version_id(n, version) | 0xABCD0000 : version_gref(n, version);
}

/* The guest. */

static void store_word(uint32_t n, uint32_t word, uint32_t value)
{
    atomic_store_explicit(&page.word[ring_slot(RECEIVE_SLOT_WORDS, n) + word], value,
                          memory_order_relaxed);
}

/* Puts another version into a word of a request; a ruined one stays so. */
static void rewrite(uint32_t n)
{
    uint32_t word = rng_below(&guest_rng, RECEIVE_SLOT_WORDS);
    uint32_t count = version_count(rewriting_of(n), n, word, RECEIVE_SLOT_WORDS);

    if (ruined[n % TOLLMEANDER_RING_SLOTS])
        return;
    store_word(n, word, request_word(n, word, rng_below(&guest_rng, count)));
    rewrites++;
}

static void rewrite_some(void)
{
    uint32_t in_flight;

    front.replied += slot_ring_replies(&front);
    in_flight = front.published - front.replied;
    for (uint32_t i = 0; in_flight > 0 && i < REWRITES_AT_A_TIME; i++)
        rewrite(front.replied + rng_below(&guest_rng, in_flight));
    if (in_flight == 0 || rng_below(&guest_rng, 8) == 0)
        sched_yield();
}

static bool is_finished(void)
{
    return atomic_load_explicit(&finished, memory_order_acquire);
}

/* Waits until the host has seen all requests and wants more, and ruins them. */
static void ruin_what_was_seen(void)
{
    while (atomic_load_explicit(&page.word[RING_REQ_EVENT], memory_order_acquire) !=
           front.published + 1) {
        if (is_finished())
            return;
        rewrite_some();
    }
    front.replied += slot_ring_replies(&front);
    for (uint32_t n = front.replied; n != front.published; n++) {
        ruined[n % TOLLMEANDER_RING_SLOTS] = true;
        store_word(n, 0, POISON_ID);
        store_word(n, 1, 0);
        ruined_requests++;
    }
}

static void post_requests(uint32_t count)
{
    for (uint32_t i = 0; i < count; i++) {
        uint32_t n = front.written;
        uint32_t slot[RECEIVE_SLOT_WORDS] = { request_word(n, 0, 0), request_word(n, 1, 0) };

        ruined[n % TOLLMEANDER_RING_SLOTS] = false;
        slot_ring_write(&front, slot);
    }
    if (slot_ring_publish(&front, count))
        channel_notify(&host.events);
}

static void run_guest(void)
{
    while (!is_finished()) {
        rewrite_some();
        if (rng_below(&guest_rng, 8) == 0)
            ruin_what_was_seen();
        if (front.published - front.replied < MOST_REQUESTS)
            post_requests(1 + rng_below(&guest_rng, 3));
    }
}

/* The host. */

/* A word of the reply to request n, of the private page: the guest may have changed its own. */
static uint32_t reply_word(uint32_t n, uint32_t word)
{
    return private_word(host.receive.ring.page, ring_slot(RECEIVE_SLOT_WORDS, n) + word);
}

static bool is_reply(uint32_t n, uint32_t piece, bool last)
{
    uint32_t ids = version_count(rewriting_of(n), n, 0, RECEIVE_SLOT_WORDS);
    bool id = false;

    for (uint32_t version = 0; version < ids; version++)
        id |= reply_word(n, 0) == version_id(n, version);
    return id && reply_word(n, 1) == (piece << 16 | (last ? 0 : MORE_DATA));
}

/* Whether exactly one version's page has the piece and all else is clear. Clears it. */
static bool is_delivered(uint32_t n, const uint8_t *piece, uint32_t size)
{
    static const uint8_t clear[TOLLMEANDER_PAGE_SIZE];
    uint32_t grefs = version_count(rewriting_of(n), n, 1, RECEIVE_SLOT_WORDS);
    uint32_t found = 0;
    bool right = true;

    for (uint32_t version = 0; version < VERSIONS; version++) {
        uint8_t *bytes = version_page(&pages, n, version);

        if (memcmp(bytes, clear, TOLLMEANDER_PAGE_SIZE) == 0)
            continue;
        found++;
        right &= version < grefs && memcmp(bytes, piece, size) == 0 &&
                 memcmp(bytes + size, clear, TOLLMEANDER_PAGE_SIZE - size) == 0;
        memset(bytes, 0, TOLLMEANDER_PAGE_SIZE);
    }
    return right && found == 1;
}

static bool is_right(uint32_t first, const uint8_t *frame, uint32_t length)
{
    bool right = true;

    for (uint32_t at = 0, n = first; at < length; at += TOLLMEANDER_PAGE_SIZE, n++) {
        bool last = length - at <= TOLLMEANDER_PAGE_SIZE;
        uint32_t piece = last ? length - at : TOLLMEANDER_PAGE_SIZE;

        right &= is_reply(n, piece, last);
        right &= is_delivered(n, frame + at, piece);
    }
    return right;
}

/* Puts one frame, or sleeps where there are no buffers. */
static void deliver(const uint8_t *frame, uint32_t length)
{
    struct tollmeander_report report;
    uint32_t first = host.receive.ring.consumed;
    uint32_t answer = host_put(&host, frame, length, &report);

    if (!host_is_done(&host, answer, host_may_sleep(answer)))
        return;
    if (!is_right(first, frame, length))
        wrong_frames++;
    frames++;
}

static void run_host(void)
{
    static uint8_t frame[MOST_PIECES * TOLLMEANDER_PAGE_SIZE];
    struct rng rng = rng_of(options.seed, 1);

    while (frames < options.packets && host_goes_on(&host)) {
        uint64_t number = frames;
        uint32_t length = TOLLMEANDER_FRAME_MIN +
                          rng_below(&rng, sizeof frame - TOLLMEANDER_FRAME_MIN);

        memset(frame, 1 + (int)(number % 255), length);
        memcpy(frame, &number, sizeof number);
        while (frames == number && host_goes_on(&host))
            deliver(frame, length);
    }
    atomic_store_explicit(&finished, true, memory_order_release);
}

int main(int argc, char **argv)
{
    struct guest_memory memory = version_pages_memory(&pages);

    options = run_options_read(argc, argv);
    version_pages_grant(&pages);
    host_open(&host, &memory, (uint32_t)FIRST_COUNTER, options.in_steps);
    guest_rng = rng_of(options.seed, 2);
    slot_ring_open(&front, &page, RECEIVE_SLOT_WORDS, (uint32_t)FIRST_COUNTER);
    back_receive_open(&host.receive, &page, (uint32_t)FIRST_COUNTER);
    threads_run(run_guest, run_host);
    printf("hostile receive: %" PRIu64 " frames, %" PRIu64 " requests rewritten, %" PRIu64
           " ruined, %" PRIu64 " wrong frames, %" PRIu64 " unexpected answers; %s\n",
           frames, rewrites, ruined_requests, wrong_frames, host.unexpected,
           host.events.stalled ? "a stall" : "no stall");
    return frames == options.packets && wrong_frames == 0 && host_goes_on(&host) ? 0 : 1;
}
