/*
 * The host's end of a ring page that the guest has mapped.
 *
 * The library must not be lent such a page, as the guest can write it during a
 * call. An end of a ring keeps a private page beside it: each slot is copied there
 * once, when req_prod first covers it; the library works on the private page; and
 * what a call changed is written back to the guest's page, with the barriers and
 * the second look that notifying and sleeping need.
 *
 * A transmit packet is taken first and replied to later. It is held from its take
 * until the host has finished it, and every packet taken before it: replies leave in
 * the order of taking.
 *
 * A host's loop, for one guest whose pages are always mapped:
 *
 *     answer = back_transmit_take(&transmit, &memory, frame, sizeof frame, &report);
 *     if (report.notify)
 *         notify the guest;
 *     if (answer == TOLLMEANDER_DONE)
 *         hand frame, report and back_transmit_ticket(&transmit, &report) to the device;
 *     else
 *         count the answer, and report.cause of one that is spoiled;
 *     switch (back_ring_next(answer)) {
 *     case BACK_GO_ON:
 *         go on, but give other guests their turn after some packets;
 *     case BACK_SLEEP:
 *         sleep until the guest notifies, and go on; hear the device meanwhile;
 *     case BACK_WAIT_FOR_DEVICE:
 *         go on when a packet is finished: the guest is not asked to notify, and may be
 *         waiting for replies itself;
 *     case BACK_DISCONNECT:
 *         disconnect the guest, both rings;
 *     case BACK_MEND:
 *         lend a frame buffer of TOLLMEANDER_FRAME_MAX octets (NO_ROOM) or a frame of
 *         another length (BAD_LENGTH) and go on, or say so and disconnect: the same
 *         call would get the same answer for ever;
 *     }
 *
 * And when the device has confirmed a packet, or has had its time:
 *
 *     answer = back_transmit_finish(&transmit, ticket, status, &report);
 *     if (report.notify)
 *         notify the guest;
 *     if (answer != TOLLMEANDER_DONE)
 *         count it: finished already, or of an earlier connection;
 *     go on taking, if the loop above waits for the device.
 *
 * The same in steps, for a host that maps the guest's pages as they are needed, or
 * moves data by grant copy:
 *
 *     back_ring_look(&transmit.ring);
 *     map, or copy in, what the slots from transmit.ring.consumed up to
 *     transmit.ring.copied name;
 *     answer = back_transmit_take_copied(&transmit, &memory, frame, sizeof frame, &report);
 *     unmap what the report.slots slots before transmit.ring.consumed named;
 *     if (back_ring_publish(&transmit.ring))
 *         notify the guest;
 *     as above, but that a host sleeps only if back_ring_may_sleep(&transmit.ring).
 *
 *     answer = back_transmit_finish_copied(&transmit, ticket, status, &report);
 *     perhaps finish more of them;
 *     if (back_ring_publish(&transmit.ring))
 *         notify the guest;
 *
 * On receive likewise, with copying out in place of copying in: after the call and
 * before publishing. Nothing is held there.
 *
 * Whatever the guest does to its page, the private page only ever sees further
 * slots join the posted ones, or an overflow, which halts. A slot that the guest
 * rewrites or withdraws after publishing it stays as it was copied, until its reply
 * is published: the reply has the id that was copied.
 *
 * NOTE: A page must not be mapped any more when the reply that concerns it is
 *       published. Linux takes its page back when it reads the reply; if the host has
 *       it mapped still, it logs "Grant still in use by backend domain" and switches its
 *       interface off, and the host is told nothing. The frame is joined when a take is
 *       done: its pages need not wait for the device.
 * NOTE: Fetch what the copied slots name, and nothing that is read from the guest's
 *       page again: a slot that comes in between has no grant word, and an honest
 *       packet is spoiled.
 * NOTE: A slot is copied word by word, four octets at a time. A guest that rewrites
 *       it at that moment may have words of both versions copied: a slot that it
 *       could have posted as well. Nothing is read a second time.
 * NOTE: The two rings of a guest have one window: call for one of them at a time. A
 *       finish is such a call: what a device confirms on another thread is handed over to
 *       the guest's.
 * NOTE: The next take writes to the frame buffer that it is lent. Where the device does
 *       not copy a frame, lend each packet in flight a buffer of its own.
 * NOTE: One packet that is never finished stops its guest when 256 slots, or all
 *       records, are behind it. Finish each within a time limit, as dropped if the device
 *       has not confirmed it: see back_transmit_oldest.
 */
#ifndef TOLLMEANDER_BACK_RING_H
#define TOLLMEANDER_BACK_RING_H

#include <stdbool.h>
#include <stddef.h>
#include <stdint.h>

#include "guest_memory.h"
#include "tollmeander.h"

#ifdef __cplusplus
extern "C" {
#endif

/*
 * What the ends of both rings have in common. A host may read copied, consumed and
 * halted; the rest is for back_ring.c. All zeros is a ring that is not open.
 */
struct back_ring {
    struct ring_page *shared;       /* the guest has it mapped too; null if not open */
    uint32_t slot_words;
    uint32_t reply_words;
    uint32_t reference_word;        /* of a slot: its grant reference */
    uint32_t copied;                /* slots before this counter have been copied */
    uint32_t consumed;              /* the library's counter of slots consumed */
    uint32_t published;             /* replies before this counter are on the guest's page */
    uint32_t halted;                /* the library's mark */
    uint32_t reference[TOLLMEANDER_RING_SLOTS]; /* of slot n at n % 256 */
    uint8_t page[TOLLMEANDER_PAGE_SIZE];        /* the private page */
};

/*
 * The host's end of a transmit ring. Slots from replied up to ring.consumed are of packets
 * that are held. A host may read replied, connection and records.
 */
struct back_transmit {
    struct back_ring ring;
    uint32_t replied;               /* the library's counter: replies before it are on the
                                       private page, and published by the next publishing */
    uint32_t connection;            /* another number at each opening; 0 before the first */
    uint32_t records;               /* of held, as many are lent */
    struct tollmeander_held held[TOLLMEANDER_HELD_MAX];
};

/* The host's end of a receive ring. */
struct back_receive {
    struct back_ring ring;
};

/*
 * A packet that was taken and is to be finished. A ticket of a connection that is over, or of
 * another guest, finishes nothing, whenever it comes. All zeros is no packet's.
 *
 * NOTE: Connections are numbered from 1 on in each process, modulo 2^32. A device that outlives
 *       its host must not hand old tickets to the next one.
 */
struct back_ticket {
    uint32_t connection;            /* of the back_transmit that took the packet */
    uint32_t slot;                  /* the counter of its first slot: ticket in the report */
};

/*
 * Begins a fresh queue on a mapped page of 4,096 octets, aligned to 4, at the counter
 * that the guest begins with (commonly 0). Nothing is written to the page; slots
 * that the guest has posted already are found by the first look.
 *
 * On transmit up to records packets are held at once, 1 to TOLLMEANDER_HELD_MAX, spoiled
 * ones that wait for their turn included; then takes are answered NO_RECORD. A call's time
 * grows with records: as many as the device takes packets at once are enough.
 *
 * False, with nothing changed, if the ring is open, the page is null or not aligned, or
 * records is another number.
 */
bool back_transmit_open(struct back_transmit *transmit, void *shared, uint32_t counter,
                        uint32_t records);
bool back_receive_open(struct back_receive *receive, void *shared, uint32_t counter);

/*
 * Forgets the page, which can be unmapped then, and all that was posted on it. When the
 * guest connects again, the ring is opened again: a fresh queue on its new page. Calls on
 * a ring that is not open answer TOLLMEANDER_HALTED, but that a finish answers
 * TOLLMEANDER_BAD_TICKET: tickets end with their connection.
 */
void back_ring_close(struct back_ring *ring);

/*
 * tollmeander_transmit_take and tollmeander_receive_put on a ring page that the guest
 * has mapped, all steps in one. Answers and report as there, but that notify is decided
 * after the replies are published, by the guest's rsp_event of that moment. When the
 * answer is one to sleep after, nothing has been posted since req_event was published:
 * the guest will notify.
 */
uint32_t back_transmit_take(struct back_transmit *transmit, const struct guest_memory *memory,
                            uint8_t *frame, size_t frame_len, struct tollmeander_report *report);
uint32_t back_receive_put(struct back_receive *receive, const struct guest_memory *memory,
                          const uint8_t *frame, size_t frame_len,
                          struct tollmeander_report *report);

/*
 * The ticket of the packet that a take has just handed over, by its report; all zeros if
 * it handed none over. Before the ring is opened again.
 */
struct back_ticket back_transmit_ticket(const struct back_transmit *transmit,
                                        const struct tollmeander_report *report);

/*
 * tollmeander_transmit_finish likewise, all steps in one: status is TOLLMEANDER_REPLY_OKAY,
 * _ERROR or _DROPPED. After DONE report.slots replies have left; there are none while an
 * older packet is open. TOLLMEANDER_BAD_TICKET, with nothing changed, also for a ticket of
 * another connection. Also on a ring that is halted, until it is closed.
 */
uint32_t back_transmit_finish(struct back_transmit *transmit, struct back_ticket ticket,
                              int32_t status, struct tollmeander_report *report);

/*
 * The ticket that has been open for longest, which all replies wait for; false if none is
 * open. So a host bounds how long a ticket may stay open, without a clock for each:
 *
 *     once in every period:
 *         while (back_transmit_oldest(&transmit, &ticket) &&
 *                (int32_t)(ticket.slot - limit) < 0) {
 *             back_transmit_finish(&transmit, ticket, TOLLMEANDER_REPLY_DROPPED, &report);
 *             if (report.notify)
 *                 notify the guest;
 *         }
 *         limit = transmit.ring.consumed;
 *
 * where limit is the counter of the opening at first. What is dropped was open for one
 * period at least, and nothing is open for more than two.
 */
bool back_transmit_oldest(const struct back_transmit *transmit, struct back_ticket *ticket);

/*
 * First step: copies the slots that were posted since the last look. While replies wait
 * to be published none is copied, as a slot may be posted where such a reply stands.
 */
void back_ring_look(struct back_ring *ring);

/*
 * The grant reference that slot n named when it was copied, also after the call that
 * consumed it. Good for the 256 slots before copied. (Of an extra it is octets 0 to 3,
 * which name nothing.)
 */
uint32_t back_ring_reference(const struct back_ring *ring, uint32_t n);

/*
 * Second step: the library's call, on the slots that were copied. Nothing is published
 * yet, and notify in the report is 0: publishing decides it.
 */
uint32_t back_transmit_take_copied(struct back_transmit *transmit,
                                   const struct guest_memory *memory,
                                   uint8_t *frame, size_t frame_len,
                                   struct tollmeander_report *report);
uint32_t back_transmit_finish_copied(struct back_transmit *transmit, struct back_ticket ticket,
                                     int32_t status, struct tollmeander_report *report);
uint32_t back_receive_put_copied(struct back_receive *receive, const struct guest_memory *memory,
                                 const uint8_t *frame, size_t frame_len,
                                 struct tollmeander_report *report);

/*
 * After a put that is DONE, where a piece of the frame could not be brought to the guest's
 * page: makes of it what the library makes of a request that is not fit. All replies
 * of the frame become errors, so that no part of it is delivered, and the report says
 * SPOILED, cause GRANT, at the piece's place. Before publishing.
 */
void back_receive_refuse(struct back_receive *receive, uint32_t place,
                         struct tollmeander_report *report);

/*
 * Third step: publishes every reply that is not published yet, of one call or of several;
 * whether to notify the guest.
 */
bool back_ring_publish(struct back_ring *ring);

/*
 * Last step, after an answer to sleep after: asks the guest to notify of its next slot, and
 * looks again. Whether nothing was posted meanwhile; else the host calls again. False, and
 * nothing asked, while replies wait to be published, and where the last call on the copied
 * slots did not want more of them: no event would come.
 */
bool back_ring_may_sleep(struct back_ring *ring);

/* What a host does after an answer of take and put. */
enum back_next {
    BACK_GO_ON,             /* DONE, SPOILED: there may be more */
    BACK_SLEEP,             /* EMPTY, WAITING, NO_BUFFERS: until the guest posts more */
    BACK_WAIT_FOR_DEVICE,   /* NO_RECORD: until a packet is finished and its replies left */
    BACK_DISCONNECT,        /* HALTED, OVERFLOW, MISSHAPEN: the ring is done with for ever */
    BACK_MEND               /* any other: the host lent something wrong */
};

enum back_next back_ring_next(uint32_t answer);

#ifdef __cplusplus
}
#endif

#endif
