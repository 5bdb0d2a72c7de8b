#include "device.h"

bool device_give(struct device *device, struct back_ticket ticket)
{
    if (device->count == DEVICE_TICKETS)
        return false;
    device->ticket[device->count++] = ticket;
    return true;
}

bool device_confirm(struct device *device, struct back_ticket *ticket, int32_t *status)
{
    if (device->count == 0)
        return false;
    *ticket = device->ticket[--device->count];
    *status = TOLLMEANDER_REPLY_OKAY;
    return true;
}
