/*
 * A call of one end of a ring, with the other side acting at every point of it, one after the
 * other: before each access that the call makes to the ring page, and between the moments at which
 * its stores get there.
 *
 * Each case runs with three kinds of arrival: the caller's stores reach the page at once; or as
 * late as its barriers allow (as on x86, where a store may pass a later load); or late and out of
 * order, and slots are loaded as early as its barriers allow (as on ARM). So a missing barrier
 * fails here.
 *
 * To be included before the ring's source, whose atomic operations are then those of this file.
 */
#ifndef INTERLEAVING_H
#define INTERLEAVING_H

#include <stdint.h>
#include <string.h>

#include "check.h"
#include "scene.h"

/* The counter that every case begins with, so that it wraps at once. */
#define COUNTER UINT32_MAX

enum { MOST_POINTS = 64, MOST_STORES = 64 };

/* When the caller's stores reach the page. */
enum arrival { AT_ONCE, LATE, OUT_OF_ORDER };

/* What the other side does in two steps, and at which points. */
struct script {
    void (*first)(void);
    void (*second)(void);
    uint32_t first_at;
    uint32_t second_at;
};

struct pending_store {
    uint32_t at;
    uint32_t value;
};

static enum arrival arrival;
static struct script script;
static struct pending_store pending[MOST_STORES];
static uint32_t pending_count, point;
static struct ring_page early;          /* what a load of a slot may still give, out of order */
static uint32_t loads[RING_WORDS];      /* of each word, by the last call */

static void do_nothing(void)
{
}

static void let_other_act(void)
{
    if (point == script.first_at)
        script.first();
    if (point == script.second_at)
        script.second();
    point++;
}

/* Lets the stores under way reach the page: the oldest first, or the newest. */
static void drain(void)
{
    for (uint32_t i = 0; i < pending_count; i++) {
        uint32_t next = arrival == OUT_OF_ORDER ? pending_count - 1 - i : i;

        set_word(pending[next].at, pending[next].value);
        if (arrival != AT_ONCE)
            let_other_act();
    }
    pending_count = 0;
}

/* What a load gives: the caller's own last store, if it is under way, else what is on the page. */
static uint32_t loaded(uint32_t at)
{
    for (uint32_t i = pending_count; i > 0; i--)
        if (pending[i - 1].at == at)
            return pending[i - 1].value;
    return arrival == OUT_OF_ORDER && at >= RING_FIRST_SLOT ? early.word[at] : word(at);
}

static uint32_t hooked_load(uint32_t at, memory_order order)
{
    uint32_t value;

    let_other_act();
    loads[at]++;
    value = loaded(at);
    if (order == memory_order_acquire)
        memcpy(&early, &page, sizeof page);
    return value;
}

static void hooked_store(uint32_t at, uint32_t value, memory_order order)
{
    let_other_act();
    if ((arrival == OUT_OF_ORDER && order == memory_order_release) || pending_count == MOST_STORES)
        drain();
    pending[pending_count++] = (struct pending_store){ at, value };
    if (arrival == AT_ONCE)
        drain();
}

static void hooked_fence(void)
{
    let_other_act();
    drain();
    memcpy(&early, &page, sizeof page);
}

/* A call with the other side's two steps at their points, or after it. */
static void run(void (*call)(void), void (*first)(void), void (*second)(void))
{
    memset(loads, 0, sizeof loads);
    memcpy(&early, &page, sizeof page);
    script.first = first;
    script.second = second;
    point = 0;
    call();
    let_other_act();
    CHECK(point < MOST_POINTS);
    drain();
    while (point <= MOST_POINTS)
        let_other_act();
    script.first = script.second = do_nothing;
}

/* Makes a case with the two steps at all points, for each kind of arrival. */
static void at_all_points(void (*check_case)(void))
{
    script.first = script.second = do_nothing;
    for (arrival = AT_ONCE; arrival <= OUT_OF_ORDER; arrival++)
        for (script.first_at = 0; script.first_at < MOST_POINTS; script.first_at++)
            for (script.second_at = script.first_at; script.second_at < MOST_POINTS;
                 script.second_at++)
                check_case();
}

#undef atomic_load_explicit
#undef atomic_store_explicit
#undef atomic_thread_fence
#define atomic_load_explicit(from, order) hooked_load((uint32_t)((from) - page.word), order)
#define atomic_store_explicit(to, value, order) \
    hooked_store((uint32_t)((to) - page.word), value, order)
#define atomic_thread_fence(order) hooked_fence()

#endif
