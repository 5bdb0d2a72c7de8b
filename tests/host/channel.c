#include "channel.h"

#include <poll.h>
#include <stdio.h>
#include <stdlib.h>
#include <sys/eventfd.h>
#include <unistd.h>

static void die(const char *what)
{
    perror(what);
    exit(1);
}

void channel_open(struct channel *channel)
{
    *channel = (struct channel){ .fd = eventfd(0, EFD_NONBLOCK) };
    if (channel->fd < 0)
        die("eventfd");
}

void channel_notify(struct channel *channel)
{
    const uint64_t one = 1;

    if (write(channel->fd, &one, sizeof one) != (ssize_t)sizeof one)
        die("write to an eventfd");
}

void channel_sleep(struct channel *channel)
{
    struct pollfd poller = { .fd = channel->fd, .events = POLLIN };
    uint64_t events;

    channel->sleeps++;
    if (poll(&poller, 1, STALL_MS) <= 0)
        channel->stalled = true;
    else if (read(channel->fd, &events, sizeof events) != (ssize_t)sizeof events)
        die("read from an eventfd");
}
