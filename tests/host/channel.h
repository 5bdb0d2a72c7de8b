/* An event channel to one of two threads, which sleeps until the other notifies it. */
#ifndef CHANNEL_H
#define CHANNEL_H

#include <stdbool.h>
#include <stdint.h>

/* A sleep without an event for so long is a stall: some notification was missed. */
enum { STALL_MS = 5000 };

/* The fields are the sleeper's; others read them when it has ended. */
struct channel {
    int fd;
    uint64_t sleeps;
    bool stalled;
};

void channel_open(struct channel *channel);
void channel_notify(struct channel *channel);

/* Sleeps until an event comes, and takes it, or until it is a stall. */
void channel_sleep(struct channel *channel);

#endif
