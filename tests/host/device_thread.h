/*
 * The device of a host in a test of threads: confirms packets on a thread of its own, each some
 * time after it got it, in any order. The host sleeps for it as for its guest, by its one channel.
 */
#ifndef DEVICE_THREAD_H
#define DEVICE_THREAD_H

#include <pthread.h>
#include <stdbool.h>
#include <stdint.h>
#include <stdio.h>
#include <stdlib.h>
#include <string.h>

#include "back_ring.h"
#include "channel.h"
#include "dawdle.h"
#include "rng.h"

/* A packet, and what becomes of it. */
struct confirmation {
    struct back_ticket ticket;
    int32_t status;
};

struct device_thread {
    pthread_mutex_t lock;           /* for all up to is_ending */
    struct confirmation got[TOLLMEANDER_HELD_MAX];          /* and not confirmed */
    struct confirmation confirmed[TOLLMEANDER_HELD_MAX];    /* and not collected by the host */
    uint32_t got_count, confirmed_count;
    bool is_ending;
    struct channel events;          /* that come to the device */
    struct channel *to_host;
    struct rng rng;
    pthread_t thread;
};

/* Confirms some of the packets that the device has got, any of them; whether it had one. */
static inline bool device_thread_confirm(struct device_thread *device)
{
    uint32_t had;
    bool is_news;

    pthread_mutex_lock(&device->lock);
    had = device->got_count;
    is_news = had > 0 && device->confirmed_count == 0;
    for (uint32_t left = had > 0 ? 1 + rng_below(&device->rng, had) : 0; left > 0; left--) {
        uint32_t i = rng_below(&device->rng, device->got_count);

        device->confirmed[device->confirmed_count++] = device->got[i];
        device->got[i] = device->got[--device->got_count];
    }
    pthread_mutex_unlock(&device->lock);
    if (is_news)
        channel_notify(device->to_host);
    return had > 0;
}

static inline bool device_thread_is_ending(struct device_thread *device)
{
    bool is_ending;

    pthread_mutex_lock(&device->lock);
    is_ending = device->is_ending;
    pthread_mutex_unlock(&device->lock);
    return is_ending;
}

static inline void *device_thread_run(void *thread)
{
    struct device_thread *device = thread;

    while (!device_thread_is_ending(device)) {
        dawdle(&device->rng);
        if (!device_thread_confirm(device))
            channel_sleep(&device->events);
    }
    return NULL;
}

static inline void device_thread_open(struct device_thread *device, struct channel *to_host,
                                      uint64_t seed)
{
    memset(device, 0, sizeof *device);
    pthread_mutex_init(&device->lock, NULL);
    channel_open(&device->events);
    device->to_host = to_host;
    device->rng = rng_of(seed, UINT64_MAX - 1);
    if (pthread_create(&device->thread, NULL, device_thread_run, device) != 0) {
        fputs("cannot start a thread\n", stderr);
        exit(1);
    }
}

/* Ends the device's thread; packets that it has got are never confirmed. */
static inline void device_thread_close(struct device_thread *device)
{
    pthread_mutex_lock(&device->lock);
    device->is_ending = true;
    pthread_mutex_unlock(&device->lock);
    channel_notify(&device->events);
    pthread_join(device->thread, NULL);
}

/* The device gets a packet. */
static inline void device_thread_give(struct device_thread *device, struct confirmation packet)
{
    bool is_first;

    pthread_mutex_lock(&device->lock);
    is_first = device->got_count == 0;
    device->got[device->got_count++] = packet;
    pthread_mutex_unlock(&device->lock);
    if (is_first)
        channel_notify(&device->events);
}

/* What was confirmed since the last time; how many packets. */
static inline uint32_t device_thread_collect(struct device_thread *device,
                                         struct confirmation packets[TOLLMEANDER_HELD_MAX])
{
    uint32_t count;

    pthread_mutex_lock(&device->lock);
    count = device->confirmed_count;
    memcpy(packets, device->confirmed, count * sizeof packets[0]);
    device->confirmed_count = 0;
    pthread_mutex_unlock(&device->lock);
    return count;
}

#endif
