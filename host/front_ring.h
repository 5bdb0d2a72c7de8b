/*
 * A driver's end of a transmit ring page that the backend has mapped.
 *
 * The library must not be lent such a page, as the backend can write it during a
 * call. A front_ring keeps a private page beside it: tollmeander_transmit_post works
 * on the private page; the slots that it posted are written to the backend's page,
 * then req_prod, with the barriers that notifying and sleeping need. Replies are read
 * from the backend's page once each, and are tested before they count.
 *
 * A driver's loop:
 *
 *     while ((collected = front_ring_collect(&ring, &packet)) == FRONT_PACKET)
 *         take back the pages of the oldest packet in flight;
 *     if (collected == FRONT_BROKEN)
 *         disconnect, take back all pages when their grants have ended, and stop;
 *     while (there is a frame to send, and there are pages for it) {
 *         answer = front_ring_post(&ring, &memory, references, count, frame, length,
 *                                  gso, &report);
 *         if (report.notify)
 *             notify the backend;
 *         if (answer == TOLLMEANDER_NO_SLOTS)
 *             leave this loop: the frame waits for replies;
 *         else if (answer != TOLLMEANDER_DONE)
 *             drop the frame: the driver lent something wrong;
 *     }
 *     if (front_ring_await(&ring, 1))
 *         sleep until the backend notifies, or until there is a frame to send;
 *     and again.
 *
 * Whatever the backend does to its page, what is posted next, and which slots are
 * free, is decided by the private page and by the replies that passed. Replies must
 * come in the order of the slots: to a data slot its id (the slot counter modulo
 * 65,536) with REPLY_OKAY, REPLY_ERROR or REPLY_DROPPED; to an extra id 0 with
 * REPLY_NULL. More replies than there are slots in flight, another id or another
 * status break the ring for ever.
 *
 * What the driver still owes:
 *
 * - Duties 1 to 3 of tollmeander.h, "What the host owes". One thread at a time for a
 *   ring.
 * - Pages. A page is the packet's until front_ring_collect has told the packet. Its
 *   grant is ended, or its page used again, only then.
 * - The octets of a packet's last page behind its piece are granted too. Clear them
 *   if the backend is not trusted.
 * - Frames that the backend can take: over 4,096 octets only if it has feature-sg,
 *   gso only if it has feature-gso-tcpv4 or -tcpv6, and complete checksums.
 *
 * NOTE: Xen lets a backend reply in another order than that of the slots. Linux's
 *       netback does so at times, and does not clear an extra's id. Such replies are
 *       refused here; a backend on this library (back_ring.c) replies as said above.
 * NOTE: A backend need not publish the replies of a packet all at once. They are read
 *       when the last of them is there, and free no slot before.
 * NOTE: A backend may hold a packet until its device has confirmed it. Slots and pages are
 *       the packet's for so long, and those of the packets behind it too.
 */
#ifndef TOLLMEANDER_FRONT_RING_H
#define TOLLMEANDER_FRONT_RING_H

#include <stdbool.h>
#include <stddef.h>
#include <stdint.h>

#include "guest_memory.h"
#include "tollmeander.h"

#ifdef __cplusplus
extern "C" {
#endif

/* The gso that a packet asks for; all 0 for none. */
struct front_gso {
    uint32_t given; /* whether there is one: else the two others are not looked at */
    uint16_t size;  /* of a segment, 1 or more */
    uint8_t type;   /* 1 TCP over IPv4, 2 TCP over IPv6 */
};

/* A packet whose slots are all replied to. Packets come in the order of posting. */
struct front_packet {
    uint32_t first; /* the counter of its first slot: ring->posted before it was posted */
    uint32_t slots; /* slots that are free again, extras counted */
    uint32_t pages; /* references that are the driver's again: the first ones of its list */
    int32_t status; /* OKAY, or the first other status among the data slots' replies */
};

enum front_collected {
    FRONT_NONE,     /* no packet in flight has all its replies */
    FRONT_PACKET,   /* a packet is told */
    FRONT_BROKEN    /* the backend has broken the ring; see fault */
};

/* How the backend has broken the ring. */
enum front_fault {
    FRONT_SOUND,            /* it has not */
    FRONT_TOO_MANY_REPLIES, /* rsp_prod covers slots that are not in flight */
    FRONT_WRONG_ID,
    FRONT_WRONG_STATUS
};

/* A packet in flight, kept by the number of its first slot on the ring. */
struct front_flight {
    uint8_t slots;
    uint8_t extras; /* 0 or 1 */
};

/* One ring. The fields are for front_ring.c; a driver may read posted, replies_read and fault. */
struct front_ring {
    struct ring_page *shared;               /* the backend has it mapped too */
    uint32_t posted;                        /* slots posted: our req_prod */
    uint32_t replies_read;                  /* slots whose replies were read and passed */
    enum front_fault fault;
    struct front_flight flight[TOLLMEANDER_RING_SLOTS];
    uint8_t page[TOLLMEANDER_PAGE_SIZE];    /* the private page */
};

/*
 * Begins a fresh queue at a counter (commonly 0), on a page of 4,096 bytes, aligned to
 * 4, before the backend maps it. The page is cleared and the four counters are set:
 * both sides ask for the first event.
 */
void front_ring_open(struct front_ring *ring, void *shared, uint32_t counter);

/*
 * tollmeander_transmit_post on a ring page that the backend has mapped. count is how
 * many references there are. Answers and report as there, but that notify is decided
 * after the slots are published, by the backend's req_event of that moment, and that
 * the answer on a broken ring is HALTED. After an answer other than DONE the backend's
 * page, the window and the ring are as they were.
 */
uint32_t front_ring_post(struct front_ring *ring, const struct guest_memory *memory,
                         const uint32_t *references, size_t count,
                         const uint8_t *frame, size_t frame_len, struct front_gso gso,
                         struct tollmeander_report *report);

/*
 * Reads the replies of the oldest packet in flight, if all have come. Writes packet
 * with FRONT_PACKET only. With FRONT_BROKEN replies_read is the counter of the slot
 * whose reply was refused; the packets from that one on stay in flight for ever, and
 * nothing more is read from or written to the backend's page.
 *
 * A packet whose data slots got different statuses is no fault: its pages are free
 * like any other's.
 */
enum front_collected front_ring_collect(struct front_ring *ring, struct front_packet *packet);

/*
 * Asks the backend to notify when so many of the oldest packets in flight (0 is as 1)
 * are replied to, or all, where they are fewer; with none in flight, at the next
 * reply. Whether the replies are still to come: the backend will notify. If not,
 * collect. On a broken ring nothing is asked for, and nothing is to come.
 */
bool front_ring_await(struct front_ring *ring, uint32_t packets);

#ifdef __cplusplus
}
#endif

#endif
