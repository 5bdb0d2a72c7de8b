/* Frames for a guest that wait for its buffers, in order. Bounded: what has no room is dropped. */
#ifndef TOLLMEANDER_OUTBOX_H
#define TOLLMEANDER_OUTBOX_H

#include <stdbool.h>
#include <stdint.h>

enum { OUTBOX_BYTES = 1 << 17 };

struct outbox {
    uint32_t first;                 /* where the oldest frame stands: length, then bytes */
    uint32_t end;
    uint64_t dropped;
    uint8_t bytes[OUTBOX_BYTES];
};

static inline bool outbox_is_empty(const struct outbox *box)
{
    return box->first == box->end;
}

/* Room for one more frame of a length, to be filled in; NULL if there is none. */
uint8_t *outbox_add(struct outbox *box, uint32_t length);

/* The oldest frame of a box that is not empty. */
const uint8_t *outbox_front(const struct outbox *box, uint32_t *length);
void outbox_remove_front(struct outbox *box);

/* Drops the oldest frame, or every frame. */
void outbox_drop_front(struct outbox *box);
void outbox_drop_all(struct outbox *box);

#endif
