/* The event channel between a simulated guest and the host: a pending event for each side. */
#ifndef EVENTS_H
#define EVENTS_H

#include <stdbool.h>
#include <stdint.h>

struct events {
    bool host_pending;
    bool guest_pending;
    uint64_t to_host;
    uint64_t to_guest;
};

static inline void events_notify_host(struct events *events)
{
    events->host_pending = true;
    events->to_host++;
}

static inline void events_notify_guest(struct events *events)
{
    events->guest_pending = true;
    events->to_guest++;
}

#endif
