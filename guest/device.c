#include "device.h"

#include <string.h>

#include "slot_bits.h"

void device_open(struct device *device, const struct traffic *traffic)
{
    memset(device, 0, sizeof *device);
    device->traffic = traffic;
    device->next = traffic_next_good(traffic, 0);
}

static bool is_right_report(const struct packet *packet, const struct tollmeander_report *report)
{
    return report->cause == 0 && report->place == 0 &&
           report->slots == packet->extras + packet->data_slots &&
           report->total == packet->length &&
           report->checksum_blank == ((packet->flags & CHECKSUM_BLANK) != 0) &&
           report->data_validated == ((packet->flags & DATA_VALIDATED) != 0) &&
           report->gso_size == packet->gso_size && report->gso_type == packet->gso_type;
}

bool device_accept(struct device *device, const uint8_t *frame,
                   const struct tollmeander_report *report)
{
    struct packet packet;
    bool right;

    traffic_packet(device->traffic, device->next, &packet);
    right = is_right_report(&packet, report) &&
            traffic_is_frame(device->traffic, packet.number, packet.length, frame);
    device->frames++;
    device->bytes += report->total;
    if (!right)
        device->wrong_frames++;
    device->next = traffic_next_good(device->traffic, device->next + 1);
    return right;
}
