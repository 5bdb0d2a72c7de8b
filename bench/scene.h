/*
 * What a row of the table is about, and the memory that is lent to its calls.
 */
#ifndef BENCH_SCENE_H
#define BENCH_SCENE_H

#include "tollmeander.h"

enum {
    /* Rings to a batch, all filled alike. */
    SCENE_RINGS = 4,
    /* Each slot names a page of its own, by a reference of the page's number. */
    SCENE_PAGES = TOLLMEANDER_RING_SLOTS,
    SCENE_FRAME_PAGES = 16,
    SCENE_FRAME = SCENE_FRAME_PAGES * TOLLMEANDER_PAGE_SIZE,
    /* A frame that begins with the last page goes on with the first ones. */
    SCENE_REFERENCES = SCENE_PAGES + SCENE_FRAME_PAGES - 1,
    /* The gso of packets that have an extra, TCP over IPv4. */
    SCENE_GSO_SIZE = 1460,
    SCENE_GSO_TYPE = 1
};

/*
 * TRANSMIT takes a packet and, where that is DONE, finishes the oldest one held:
 * its own, if none was held before. LEAVE finishes the oldest of packets that are
 * finished but for this one: all of them leave.
 */
enum way { TRANSMIT, LEAVE, RECEIVE, POST };

/*
 * A kind of call. Where it is answered DONE or SPOILED, a ring holds packets or
 * requests for as many calls as it has slots for; where something is missing,
 * the slots for one call but the last. A ring that is posted on has all slots
 * free or, where they are too few, those for one call but the last; where two
 * references name one page, they are the last two of the frame.
 */
struct row {
    const char *name;
    enum way way;
    uint32_t answer;
    uint32_t total;             /* bytes of a frame */
    uint32_t data_slots;        /* of a packet; or requests for a frame; or its pages */
    uint32_t extras;            /* of a packet */
    uint32_t offset;            /* least offset of a part */
    uint32_t records;           /* lent */
    uint32_t held;              /* packets held before a call; of one slot */
};

/* One of the copies that the calls on a ring cannot do without. */
struct copy {
    uint32_t to;
    uint32_t from;
    uint32_t length;
};

/* The memory that the calls of a row are lent. */
struct scene {
    _Alignas(TOLLMEANDER_PAGE_SIZE) uint8_t rings[SCENE_RINGS][TOLLMEANDER_PAGE_SIZE];
    uint8_t filled[TOLLMEANDER_PAGE_SIZE];      /* a ring page before the first call */
    uint8_t window[SCENE_PAGES * TOLLMEANDER_PAGE_SIZE];
    uint8_t frame_room[SCENE_FRAME + TOLLMEANDER_PAGE_SIZE];
    uint8_t *frame;                             /* somewhere in the room for it */
    uint8_t grants[(SCENE_PAGES + 1) * TOLLMEANDER_GRANT_WORD_SIZE];
    uint32_t references[SCENE_REFERENCES];      /* for posts, from a packet's first slot on */
    struct tollmeander_held held[SCENE_RINGS][TOLLMEANDER_HELD_MAX];
    struct tollmeander_held before[TOLLMEANDER_HELD_MAX];       /* records before a call */
    size_t frame_len;
    const struct row *row;
    uint32_t counter;                           /* of replies, before the first call */
    uint32_t posted;                            /* slots on a ring, before the first call */
    uint32_t calls;                             /* on a ring */
    uint32_t copies;
    struct copy copy[TOLLMEANDER_RING_SLOTS];
};

/* Makes the scene of a row. Another place stands for another place of the frame buffer. */
void scene_make(struct scene *scene, const struct row *row, unsigned place);

/* Writes random bytes, always the same, to window and frame. */
void scene_write(struct scene *scene);

/* Fills the rings and the lists of records again. */
void scene_fill(struct scene *scene);

/* Makes the copies of the calls on a ring, and nothing else. */
void scene_copy(struct scene *scene);

#endif
