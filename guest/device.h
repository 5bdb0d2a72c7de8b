/* A simulated device: takes the frames of one guest, checks each and counts them. */
#ifndef DEVICE_H
#define DEVICE_H

#include <stdbool.h>
#include <stdint.h>

#include "tollmeander.h"
#include "traffic.h"

struct device {
    const struct traffic *traffic;
    uint64_t next;          /* the packet whose frame comes next */
    uint64_t frames;
    uint64_t bytes;
    uint64_t wrong_frames;
};

void device_open(struct device *device, const struct traffic *traffic);

/* Takes the next frame with the report it came with; whether both are right. */
bool device_accept(struct device *device, const uint8_t *frame,
                   const struct tollmeander_report *report);

#endif
