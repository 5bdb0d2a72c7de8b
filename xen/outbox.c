#include "outbox.h"

#include <string.h>

uint8_t *outbox_add(struct outbox *box, uint32_t length)
{
    const uint32_t head = sizeof length, free_bytes = OUTBOX_BYTES - box->end;
    uint8_t *room = box->bytes + box->end;

    if (free_bytes < head || length > free_bytes - head) {
        box->dropped++;
        return NULL;
    }
    memcpy(room, &length, head);
    box->end += head + length;
    return room + head;
}

const uint8_t *outbox_front(const struct outbox *box, uint32_t *length)
{
    memcpy(length, box->bytes + box->first, sizeof *length);
    return box->bytes + box->first + sizeof *length;
}

void outbox_remove_front(struct outbox *box)
{
    uint32_t length;

    outbox_front(box, &length);
    box->first += (uint32_t)sizeof length + length;
    if (outbox_is_empty(box))
        box->first = box->end = 0;
}

void outbox_drop_front(struct outbox *box)
{
    outbox_remove_front(box);
    box->dropped++;
}

void outbox_drop_all(struct outbox *box)
{
    while (!outbox_is_empty(box))
        outbox_drop_front(box);
}
