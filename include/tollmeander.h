/******************************************************************************
 * tollmeander.h
 *
 * The backend side of one Xen network queue, in three calls, and a call for the
 * guest's side:
 *
 *   tollmeander_transmit_take     takes at most one packet off a transmit ring
 *                                 (guest to host), joins it to a frame and holds
 *                                 it in a list of the host's
 *   tollmeander_transmit_finish   finishes a held packet, and replies to the
 *                                 finished ones in the order of taking
 *   tollmeander_receive_put       puts at most one frame onto a receive ring
 *                                 (host to guest)
 *   tollmeander_transmit_post     lays one frame into granted pages and posts it
 *                                 on a transmit ring as one packet
 *
 * Layouts and flags are those of Xen's public netif.h and ring.h. Integers in ring
 * pages and grant tables are little-endian; counters, marks, references, records
 * and reports have the byte order of the CPU.
 *
 * A call works on what the host lends it and on nothing else. It allocates
 * nothing, keeps no pointer and no state, never blocks, calls nothing but
 * memmove and memset, and ends whatever the guest has written.
 *
 * Where a section below says NOTE, hosts have gone wrong there before.
 *
 * Usable from C99 and from C++.
 */

#ifndef TOLLMEANDER_H
#define TOLLMEANDER_H

#include <stddef.h>
#include <stdint.h>

#ifdef __cplusplus
extern "C" {
#endif

/*
 * Ring page
 * =========
 *
 *    0     1     2     3     4     5     6     7  octet
 * +-----+-----+-----+-----+-----+-----+-----+-----+
 * | req_prod              | req_event             |  0
 * +-----+-----+-----+-----+-----+-----+-----+-----+
 * | rsp_prod              | rsp_event             |  8
 * +-----+-----+-----+-----+-----+-----+-----+-----+
 * | not used                                      |  16 to 63
 * +-----+-----+-----+-----+-----+-----+-----+-----+
 * | slot 0, slot 1, ... slot 255                  |  64 to 3135, transmit
 * |                                               |  64 to 2111, receive
 * +-----+-----+-----+-----+-----+-----+-----+-----+
 * | not used                                      |  up to 4095
 * +-----+-----+-----+-----+-----+-----+-----+-----+
 *
 * What take, finish and put do with them:
 *
 * req_prod:  slots that the guest has ever posted. Read by take and put, never
 *            written.
 * req_event: the guest notifies the host when req_prod passes this. Written by
 *            EMPTY, WAITING and NO_BUFFERS (as req_prod + 1), never read.
 * rsp_prod:  slots that have ever been replied to. Written where a reply leaves,
 *            as the counter of replies then is, and nowhere else; never read.
 * rsp_event: the host notifies the guest when rsp_prod passes this. Read,
 *            never written.
 *
 * post, on the guest's side, reads and (when DONE) writes req_prod, reads
 * req_event, and does not look at the other two.
 *
 * slot n:    at 64 + 12 * (n % 256) on a transmit ring, at
 *            64 + 8 * (n % 256) on a receive ring.
 *
 * A queue of a transmit ring has two counters, of slots consumed and of slots
 * replied to; those between the two are the held packets'. A queue of a receive
 * ring has one: what put consumes it replies to.
 *
 * NOTE: The counters run on through 2^32. Slots posted and not consumed are
 *       (uint32_t)(req_prod - consumed), those held (uint32_t)(consumed - replied);
 *       a plain less-than between counters fails at the wrap.
 * NOTE: Which slots are next, to be taken or to be replied to, is decided by the
 *       lent counters alone. rsp_prod is not read, as the guest can write it.
 */
#define TOLLMEANDER_PAGE_SIZE           4096u
#define TOLLMEANDER_RING_SLOTS          256u
#define TOLLMEANDER_RING_REQ_PROD       0u
#define TOLLMEANDER_RING_REQ_EVENT      4u
#define TOLLMEANDER_RING_RSP_PROD       8u
#define TOLLMEANDER_RING_RSP_EVENT      12u
#define TOLLMEANDER_RING_FIRST_SLOT     64u
#define TOLLMEANDER_TRANSMIT_SLOT_SIZE  12u
#define TOLLMEANDER_RECEIVE_SLOT_SIZE   8u

/*
 * Slots and replies
 * =================
 *
 *    0     1     2     3     4     5     6     7     8     9    10    11  octet
 * +-----+-----+-----+-----+-----+-----+-----+-----+-----+-----+-----+-----+
 * | gref                  | offset    | flags     | id        | size      |
 * +-----+-----+-----+-----+-----+-----+-----+-----+-----+-----+-----+-----+
 *   transmit, data: flags bit 0 checksum blank, 1 data validated, 2 more data,
 *   3 extra follows
 *
 * +-----+-----+-----+-----+-----+-----+-----+-----+-----+-----+-----+-----+
 * |type |flags| gso size  |gtype| pad | features  | not used              |
 * +-----+-----+-----+-----+-----+-----+-----+-----+-----+-----+-----+-----+
 *   transmit, extra: type 1, flags bit 0 another extra follows, gtype 1 or 2
 *
 * +-----+-----+-----+-----+-----+-----+-----+-----+-----+-----+-----+-----+
 * | id        | status    | as the guest left them                        |
 * +-----+-----+-----+-----+-----+-----+-----+-----+-----+-----+-----+-----+
 *   transmit, reply: 4 octets; the id is read from the slot when the reply leaves
 *
 * +-----+-----+-----+-----+-----+-----+-----+-----+
 * | id        | not used  | gref                  |
 * +-----+-----+-----+-----+-----+-----+-----+-----+
 *   receive, request
 *
 * +-----+-----+-----+-----+-----+-----+-----+-----+
 * | id        | offset 0  | flags     | status    |
 * +-----+-----+-----+-----+-----+-----+-----+-----+
 *   receive, reply: 8 octets; flags 4 if the frame goes on in the next slot,
 *   else 0; status is the octets in this page, or REPLY_ERROR
 *
 * A packet is a data slot; its extras, if bit 3 of its flags is set; and more
 * data slots, if bit 2 is set. It has at most TOLLMEANDER_PACKET_DATA_MAX data
 * slots, the first counted, and at most TOLLMEANDER_PACKET_EXTRAS_MAX extras.
 *
 * NOTE: The size of a packet's first slot is the length of the whole frame. The
 *       part in its own page is that length less the later slots' sizes.
 * NOTE: An extra of another type than 1 halts the ring. Do not advertise
 *       feature-multicast-control, feature-ctrl-ring or feature-xdp-headroom,
 *       and the gso features only if the host cuts large packets.
 * NOTE: A reply takes the place of the slot that it answers. What the guest
 *       asked is gone when the reply has left, but for a transmit slot's last 8
 *       octets. Until then the slots of a held packet stand as they were lent.
 */
#define TOLLMEANDER_PACKET_DATA_MAX     18u
#define TOLLMEANDER_PACKET_EXTRAS_MAX   4u
#define TOLLMEANDER_PACKET_SLOTS_MAX    22u     /* of both kinds */
#define TOLLMEANDER_FRAME_MIN           14u
#define TOLLMEANDER_FRAME_MAX           65535u

/*
 * Statuses of replies. To a transmit ring's data slots: OKAY, ERROR or DROPPED, as
 * the host finishes the packet; ERROR, where it was SPOILED.
 */
#define TOLLMEANDER_REPLY_OKAY          0
#define TOLLMEANDER_REPLY_ERROR         (-1)
#define TOLLMEANDER_REPLY_DROPPED       (-2)
#define TOLLMEANDER_REPLY_NULL          1       /* to an extra, with id 0 */

/*
 * Grants and window
 * =================
 *
 * The window is the guest's pages as the host has mapped them, end to end: page
 * p is the octets 4096 * p to 4096 * p + 4095. The grant table has a word of
 * eight octets for each grant reference from 0 on, that of reference g from octet
 * 8 * g on:
 *
 *    0     1     2     3     4     5     6     7  octet
 * +-----+-----+-----+-----+-----+-----+-----+-----+
 * | page, w, g            | start     | length    |
 * +-----+-----+-----+-----+-----+-----+-----+-----+
 *
 *   bit 31 ............................ 2    1    0  of octets 0 to 3
 * +-------------------------------------+----+----+
 * | page number in the window           | w  | g  |
 * +-------------------------------------+----+----+
 *
 * g:      granted.
 * w:      the page may be written.
 * start:  where the range that is granted begins in its page.
 * length: the octets of the range. The whole page is start 0, length 4096.
 *
 * A reference is fit for transmit if its word lies wholly in the table, g is set,
 * start plus length is at most 4096 and its page lies wholly in the window. A
 * slot's part must lie in the range: offset not below start, offset plus part not
 * above start plus length. For receive a reference must be fit for transmit, w be
 * set too, and the range be the whole page.
 *
 * 0D 00 00 00 00 00 00 10 grants page 3, the whole of it, to be read only.
 *
 * NOTE: A slot's offset counts from the first octet of the page, not from start.
 * NOTE: Fill in the range too. A word with length 0 grants no octet: a part of one
 *       octet or more is spoiled with cause OFFSET, a receive request with GRANT.
 *       (An empty part at its start is still in range.)
 * NOTE: Xen maps whole pages only. What it grants of a page's part can be had by
 *       grant copy: copy it to where it stands in its page of the window.
 * NOTE: A table of n octets has words for the references below n / 8. With Xen's
 *       default of 64 grant frames they go up to 32767, which takes 256 KiB.
 * NOTE: TOLLMEANDER_GRANT_SIZE and TOLLMEANDER_GRANT_PAGE_SHIFT are gone, with the
 *       words of four octets that they laid out. A host that names them does not
 *       compile: this library would read its table wrongly.
 * NOTE: The table is the host's own, not the guest's. Fill in a word only for a
 *       page that is mapped now, with the access that it was mapped with; clear
 *       it before unmapping, and where mapping failed.
 * NOTE: Keep a page mapped until take or put has returned, and unmap it before the
 *       replies that concern it are published; finish needs none, as the frame was
 *       copied. A guest takes its page back when it reads the reply. Linux then ends
 *       the grant; if the host has the page mapped still, it logs "Grant still in
 *       use by backend domain" and switches its interface off for good, while the
 *       host is told nothing. Or move data by grant copy, and map nothing.
 */
#define TOLLMEANDER_GRANT_WORD_SIZE     8u
#define TOLLMEANDER_GRANTED             1u      /* bits of octets 0 to 3 */
#define TOLLMEANDER_GRANT_WRITABLE      2u
#define TOLLMEANDER_GRANT_PAGE_BIT      2       /* the page number's lowest */
#define TOLLMEANDER_GRANT_START         4u      /* octets of the word */
#define TOLLMEANDER_GRANT_LENGTH        6u

/*
 * Held packets
 * ============
 *
 *    0     1     2     3     4     5     6     7  octet
 * +-----+-----+-----+-----+-----+-----+-----+-----+
 * | ticket                | slots                 |  0
 * +-----+-----+-----+-----+-----+-----+-----+-----+
 * | extras                | status                |  8
 * +-----+-----+-----+-----+-----+-----+-----+-----+
 * | finished              |                          16
 * +-----+-----+-----+-----+
 *
 * A record: a packet that was taken and is not replied to yet, in five words of 32
 * bits. With each transmit ring the host lends a list of records, at most
 * TOLLMEANDER_HELD_MAX; take and finish write it.
 *
 * ticket:   the counter of the packet's first slot, by which finish names it.
 * slots:    its slots, extras counted. A record is free exactly if this is 0; what
 *           else stands in a free record does not matter.
 * extras:   its extras.
 * status:   of its data slots' replies: REPLY_OKAY until it is finished.
 * finished: 0: not yet; anything else: finished. The calls store 1.
 *
 * take holds a packet in the first free record. finish finishes it, in any order;
 * replies leave in the order of taking, as far as finished packets reach from the
 * oldest on. A record whose packet has left is all zeros. A SPOILED packet is held
 * too, finished at once with REPLY_ERROR: with nothing else held it leaves within
 * the same call, else behind the packets before it.
 *
 * The records in use hold exactly the (uint32_t)(consumed - replied) slots between
 * the two counters, at most 256, each slot in one record. Their counts are those
 * of a packet, each status is REPLY_OKAY, REPLY_ERROR or REPLY_DROPPED, and the
 * oldest is not finished. A list that is otherwise is BAD_RECORDS.
 *
 * NOTE: A status has 32 bits: 65535 is not -1. In a record it is BAD_RECORDS, as
 *       finish's parameter BAD_TICKET. A reply carries its low 16 bits.
 * NOTE: Each call looks at every record that is lent, free or not. A host with few
 *       packets in flight lends a short list: as many records as it holds packets.
 * NOTE: A list of no records is allowed, but takes nothing: every whole packet is
 *       NO_RECORD, a spoiled one too.
 */
struct tollmeander_held {
    uint32_t ticket;
    uint32_t slots;
    uint32_t extras;
    int32_t  status;
    uint32_t finished;
};

#define TOLLMEANDER_HELD_MAX            256u

/*
 * Report
 * ======
 *
 *    0     1     2     3     4     5     6     7  octet
 * +-----+-----+-----+-----+-----+-----+-----+-----+
 * | answer                | cause                 |  0
 * +-----+-----+-----+-----+-----+-----+-----+-----+
 * | place                 | slots                 |  8
 * +-----+-----+-----+-----+-----+-----+-----+-----+
 * | notify                | total                 |  16
 * +-----+-----+-----+-----+-----+-----+-----+-----+
 * | checksum_blank        | data_validated        |  24
 * +-----+-----+-----+-----+-----+-----+-----+-----+
 * | gso_size              | gso_type              |  32
 * +-----+-----+-----+-----+-----+-----+-----+-----+
 * | ticket                |                          40
 * +-----+-----+-----+-----+
 *
 * Eleven words of 32 bits. Every call writes all of them; a field that an answer
 * does not speak of is 0.
 *
 * answer:         TOLLMEANDER_DONE to TOLLMEANDER_BAD_RECORDS; what the call also
 *                 returns.
 * cause:          SPOILED only, TOLLMEANDER_CAUSE_*.
 * place:          SPOILED only, for the causes GRANT, OFFSET and GSO: which slot
 *                 of the packet (extras counted) or of the frame's requests, the
 *                 first being 0.
 * slots:          DONE of take, and SPOILED: slots consumed. DONE of put: slots
 *                 consumed and replied to. DONE of finish: slots replied to, 0
 *                 while an older packet waits. DONE of post: slots posted.
 * notify:         DONE of finish and put, and SPOILED: 1 if replies have left and
 *                 the guest asked to be notified of them, by the rsp_event in the
 *                 lent page. DONE of post: 1 if the backend asked to be notified
 *                 of these slots, by req_event.
 * total:          DONE of take and put: octets of the frame.
 * checksum_blank: DONE of take: the guest left the checksum to the host.
 * data_validated: DONE of take: the guest says that the data is sound.
 * gso_size:       DONE of take: the segment size to cut the frame to, or 0.
 * gso_type:       DONE of take: 1 TCP over IPv4, 2 TCP over IPv6, 0 no gso.
 * ticket:         DONE of take: the counter of the packet's first slot.
 *
 * NOTE: 0 is a ticket too. The answer says whether there is one.
 * NOTE: DONE of take replies to nothing. What is replied to is what replied has
 *       moved by, at take as at finish; slots of SPOILED does not tell it.
 * NOTE: notify is as old as the page that was lent. On a private copy of the
 *       page, ask again as duty 5 below says.
 * NOTE: SPOILED reports no total, and NO_ROOM reports nothing but itself. A
 *       frame buffer of TOLLMEANDER_FRAME_MAX octets always has room.
 * NOTE: A frame that was taken is still the guest's word. Its length and places
 *       were tested, its content was not. gso_size may be 1: bound the cutting.
 *       Treat a gso packet as checksum_blank, as some guests forget the flag.
 * NOTE: A later release may append words. Compile and link header and library of
 *       one release.
 */
struct tollmeander_report {
    uint32_t answer;
    uint32_t cause;
    uint32_t place;
    uint32_t slots;
    uint32_t notify;
    uint32_t total;
    uint32_t checksum_blank;
    uint32_t data_validated;
    uint32_t gso_size;
    uint32_t gso_type;
    uint32_t ticket;
};

#define TOLLMEANDER_REPORT_WORDS        11u

/*
 * Answers
 * =======
 *
 * What an answer does not name as changed is as it was before the call: octets
 * of every buffer, the counters, the mark and the records. 16 is not used.
 */

/* Take: the slots are consumed, the frame is handed over and the packet is held.
 * Finish: the packet is finished, and the finished ones from the oldest on are
 * replied to. Put: the slots are consumed and replied to, the frame is in its
 * pages. Post: the frame is in its pages and its slots are posted. */
#define TOLLMEANDER_DONE                0u
/* ring_len is not 4096. Nothing is changed. */
#define TOLLMEANDER_BAD_PAGE            1u
/* Take and put: the ring was halted before the call. Nothing is changed. */
#define TOLLMEANDER_HALTED              2u
/* Take: more than 256 slots are posted and not replied to, or req_prod is behind
 * consumed. Put: more than 256 are posted and not consumed. The ring is now halted. */
#define TOLLMEANDER_OVERFLOW            3u
/* Transmit: nothing is posted. req_event is set. */
#define TOLLMEANDER_EMPTY               4u
/* Transmit: the posted slots begin no packet. The ring is now halted. */
#define TOLLMEANDER_MISSHAPEN           5u
/* Transmit: a packet's first slots are posted, not all. req_event is set. */
#define TOLLMEANDER_WAITING             6u
/* The slots are consumed and get REPLY_ERROR (extras as ever REPLY_NULL); no frame
 * is handed over. Put: they are replied to. Take: the packet is finished without
 * the host, and is replied to in its turn: within the call if nothing was held
 * before it, else when those before it have left. See cause and place. */
#define TOLLMEANDER_SPOILED             7u
/* Transmit: a good packet, but frame_len is less than its total. Nothing is
 * changed; call again with a longer buffer. */
#define TOLLMEANDER_NO_ROOM             8u
/* Receive and post: frame_len is not 14 to 65535. Nothing is changed. */
#define TOLLMEANDER_BAD_LENGTH          9u
/* Receive: fewer requests are posted than the frame has pages. req_event is
 * set; the frame is still the host's. */
#define TOLLMEANDER_NO_BUFFERS          10u
/* Post: fewer slots are free than the packet has. Nothing is changed; read the
 * replies that have come, and call again. (With a count that is past req_prod, or
 * more than 256 behind it, none is ever free: the count is wrong.) */
#define TOLLMEANDER_NO_SLOTS            11u
/* Post: the list is shorter than the frame has pages, a reference that the frame
 * uses is not fit for receive, or two of them name one page. Nothing is changed. */
#define TOLLMEANDER_BAD_PAGES           12u
/* Post: gso is asked for with a size of 0, or a type that is neither 1 nor 2.
 * Nothing is changed. */
#define TOLLMEANDER_BAD_GSO             13u
/* Take: a whole packet stands ready, spoiled or good with room for its frame, and
 * no record is free. Nothing is changed; call again when a finish has freed one. */
#define TOLLMEANDER_NO_RECORD           14u
/* Finish: no held packet has this ticket, it is finished already (a spoiled one is
 * from the start), or the status is not one of the three. Nothing is changed. */
#define TOLLMEANDER_BAD_TICKET          15u
/* Take and finish: the list has more than 256 records, or is not as "Held packets"
 * says, for these two counters. Nothing is changed. */
#define TOLLMEANDER_BAD_RECORDS         17u

/*
 * Causes of SPOILED, in the order in which they are looked for. On receive only
 * GRANT occurs. LONG is reserved: it stood for a total above 65535, which a size
 * of 16 bits cannot be. No call reports it, and its number is not used again.
 */
#define TOLLMEANDER_CAUSE_SHORT         1u      /* total below 14 */
#define TOLLMEANDER_CAUSE_LONG          2u      /* reserved */
#define TOLLMEANDER_CAUSE_SIZES         3u      /* later sizes above total */
#define TOLLMEANDER_CAUSE_GRANT         4u      /* reference is not fit */
#define TOLLMEANDER_CAUSE_OFFSET        5u      /* part leaves its range */
#define TOLLMEANDER_CAUSE_GSO           6u      /* gso size 0 or type unknown */

/*
 * What the host owes
 * ==================
 *
 * The promises of this library hold if the host keeps the following. The library
 * can test nothing of it, but that records and counters fit each other.
 *
 * 1. Pointers. Every pointer is valid for its length, for reading and, where it
 *    is not const, for writing, and is never null: also not where the length is
 *    0. consumed, replied, halted, held, references and report stand at addresses
 *    divisible by 4. The byte buffers may stand at any address.
 *
 * 2. No overlap. No two of the things lent in one call share an octet: ring
 *    page, grant table, window, frame buffer, references, records, each counter,
 *    mark and report. In particular the ring page is not a page of the window.
 *
 * 3. Nobody else writes. While a call runs, no other thread, no device and no
 *    guest writes what is lent, and nobody reads what the call may write. take
 *    and finish of a ring are lent the same page, counters and records, and the
 *    two rings of a guest have one window, which put writes and take reads: make
 *    one call at a time for a guest. Calls for different guests may run at once.
 *    Where a device confirms a packet on another thread, hand its ticket over to
 *    the thread that makes the calls.
 *
 *    A ring page that the guest has mapped cannot be lent: the guest can write
 *    it at any time. Keep a private page. When req_prod first covers a slot,
 *    copy that slot into the private page, once; lend the private page. The
 *    order: read req_prod; an acquire barrier; the slots up to it; then req_prod
 *    into the private page, as it was read. On a transmit ring copy no slot if
 *    (uint32_t)(req_prod - replied) is above 256, for it would stand in the place
 *    of a held one: lend that req_prod, and take is OVERFLOW. If req_prod went
 *    back, there is no slot to copy.
 *
 *    The guest can also write its data pages while they are lent. The proofs do
 *    not speak of that; but a call copies the window's octets and decides nothing
 *    by them, so such a guest spoils its own frame and no more. Parse the frame
 *    buffer afterwards, never the window.
 *
 * 4. Write back little. After a call on a private page write to the guest's page
 *    only what the call changed. Where the counter of replies has moved (replied,
 *    after take and finish; consumed, after put): the slots that it moved past
 *    (the first 4 octets of a transmit slot, all 8 of a receive slot) and
 *    rsp_prod. After EMPTY, WAITING and NO_BUFFERS: req_event. The whole page
 *    written back would undo what the guest has written since; slots that are
 *    consumed and not replied to would reach the guest as replies to nothing.
 *
 * 5. Publish, then decide on the notification, in this order: pages unmapped, or
 *    pieces copied out; the replies; a release barrier (the guest sees the replies
 *    first, and gets its pages back only after they were read or written);
 *    rsp_prod; a full barrier; only now read the guest's rsp_event, and notify if
 *    (uint32_t)(rsp_prod - rsp_event) is less than what the counter of replies has
 *    moved by. An rsp_event read earlier may be old: a guest that is not notified
 *    sleeps on. One notification too many does no harm.
 *
 * 6. Look again before sleeping. After EMPTY, WAITING and NO_BUFFERS: write
 *    req_event to the guest's page; a full barrier; read req_prod again; if it
 *    has moved, call again. Else sleep until the guest notifies. After NO_RECORD
 *    wait for the device, not for the guest, which has not been asked to notify:
 *    finish a ticket, and call again.
 *
 * 7. A halt is for ever. After OVERFLOW, MISSHAPEN and HALTED the ring is done
 *    with, and nothing here lifts the mark. Disconnect the guest, both rings
 *    (the other ring's mark is its own and still clear), at a place where
 *    waiting is allowed, and ignore its events until then. What a halted ring
 *    holds can be finished. A guest that connects again gets a fresh queue.
 *
 * 8. Lend on. The counters, the mark, the list of records and the (private) ring
 *    page go into the next call as the last one left them. A fresh queue has mark
 *    0, both counters, req_prod and rsp_prod equal, commonly 0, and a list that is
 *    all zeros.
 *
 * 9. Finish what was taken. Every DONE of take gives a ticket: finish it, once,
 *    and within a time limit, with REPLY_DROPPED if need be. Replies leave in
 *    order, so one packet that is never finished stops its guest at 256 slots. A
 *    ticket belongs to one connection: drop those that are open when the guest
 *    disconnects, for the next one may give the same numbers.
 *
 * back_ring (host/ in the sources, <tollmeander/back_ring.h> where installed) does
 * 3 to 6 and 8 for a page that the guest has mapped: in one call, or in steps with
 * a place for mapping before the call and for unmapping before publishing. It tells
 * tickets of different connections apart too (9): a late one finishes nothing.
 */

/*
 * Takes the packet at the counter off a transmit ring, and holds it until it is
 * finished.
 *
 * consumed: slots consumed so far, modulo 2^32.
 * replied:  slots replied to so far, modulo 2^32.
 * halted:   0, or anything else for halted. A call that halts stores 1; a call
 *           that finds the ring halted leaves the value as it is.
 * ring:     the ring page.
 * grants:   the grant table; octets beyond the last whole word are not used.
 * window:   the guest's pages.
 * held:     the list of records.
 * held_len: how many records, not octets.
 * frame:    where the frame goes, from octet 0 on.
 * report:   all of it is written.
 *
 * Answers, in the order in which they are looked for: BAD_PAGE, BAD_RECORDS,
 * HALTED, OVERFLOW, EMPTY, then MISSHAPEN or WAITING; then of a spoiled packet
 * NO_RECORD, SPOILED, of a good one NO_ROOM, NO_RECORD, DONE.
 *
 * Needs:  what "What the host owes" says.
 * Leaves: after DONE the frame's total octets in frame, consumed moved by slots,
 *         and in the first free record the ticket, slots and extras of the packet,
 *         status 0 and finished 0; ring page and replied as they were. After
 *         SPOILED consumed moved by slots. If something was held before, that
 *         record as above, but with status REPLY_ERROR and finished 1; else that
 *         record all zeros, a reply in each of the packet's slots, replied moved by
 *         slots and rsp_prod equal to it. After EMPTY and WAITING
 *         req_event = req_prod + 1. After OVERFLOW and MISSHAPEN the mark 1.
 * Never:  hands over a part of a packet, or an octet that is not granted; replies
 *         to some slots of a packet and not to the others, or to a packet before
 *         an older one; writes frame beyond total, or unless DONE; writes grants or
 *         window; depends on slots that are not posted.
 */
uint32_t tollmeander_transmit_take(uint32_t *consumed, uint32_t *replied, uint32_t *halted,
                                   uint8_t *ring, size_t ring_len,
                                   const uint8_t *grants, size_t grants_len,
                                   const uint8_t *window, size_t window_len,
                                   struct tollmeander_held *held, size_t held_len,
                                   uint8_t *frame, size_t frame_len,
                                   struct tollmeander_report *report);

/*
 * The host's word on a ticket: okay, error or dropped. Finishes the held packet,
 * and replies to the finished packets from the oldest on, until one is not
 * finished or none is left.
 *
 * consumed: slots consumed so far, as take left it; not written.
 * replied:  slots replied to so far, as the last call left it.
 * ring:     the ring page of take.
 * held:     the list of records, as the last call left it.
 * held_len: how many records, not octets.
 * ticket:   as the DONE of take reported it.
 * status:   REPLY_OKAY, REPLY_ERROR or REPLY_DROPPED.
 * report:   all of it is written.
 *
 * Answers, in the order in which they are looked for: BAD_PAGE, BAD_RECORDS,
 * BAD_TICKET, DONE. Whether the ring is halted does not matter.
 *
 * Needs:  what "What the host owes" says.
 * Leaves: after DONE, where older packets are held, the record with the status and
 *         finished 1. Where the packet was the oldest, a reply in each slot of it
 *         and of the finished ones behind it, with the id that stands in the slot
 *         and the record's status (extras id 0 and REPLY_NULL), their records all
 *         zeros, replied moved by slots and rsp_prod equal to it. After every
 *         other answer all that was lent is as it was.
 * Never:  replies to some slots of a packet and not to the others, or to a packet
 *         before an older one; writes req_event, a record or a slot of a packet
 *         that does not leave (but for the one that is finished), or rsp_prod where
 *         none leaves; looks at req_prod.
 */
uint32_t tollmeander_transmit_finish(uint32_t consumed, uint32_t *replied,
                                     uint8_t *ring, size_t ring_len,
                                     struct tollmeander_held *held, size_t held_len,
                                     uint32_t ticket, int32_t status,
                                     struct tollmeander_report *report);

/*
 * Puts a frame into the pages of the requests at the counter of a receive ring:
 * 4096 octets to a page, from octet 0 of the page on, the last perhaps shorter.
 *
 * Parameters as those of take, but that window is written and frame is read;
 * frame_len is the frame's length. The receive ring's counter and mark are its own,
 * and consumed is also its counter of replies.
 *
 * Answers, in the order in which they are looked for: BAD_PAGE, BAD_LENGTH,
 * HALTED, OVERFLOW, NO_BUFFERS, SPOILED, DONE.
 *
 * Needs:  what "What the host owes" says; and frames as the guest can take them:
 *         complete checksums, no longer than its MTU, and longer than 4096 only
 *         if it asked for scatter-gather.
 * Leaves: after DONE the frame in the pages, a reply in each of the requests
 *         used, the counter moved by slots, rsp_prod equal to the counter. After
 *         SPOILED every request that the frame needed is replied to with
 *         REPLY_ERROR, and no page is written. After NO_BUFFERS
 *         req_event = req_prod + 1. After OVERFLOW the mark 1.
 * Never:  delivers a part of a frame; writes a page unless every request that
 *         the frame needs is fit; writes a page that is granted to be read only
 *         or in part, or octets of a page beyond the piece; writes grants or
 *         frame; uses a request beyond the ones needed.
 *
 * NOTE: Two requests that name one page harm the guest alone: the later piece is
 *       written over the earlier one.
 */
uint32_t tollmeander_receive_put(uint32_t *consumed, uint32_t *halted,
                                 uint8_t *ring, size_t ring_len,
                                 const uint8_t *grants, size_t grants_len,
                                 uint8_t *window, size_t window_len,
                                 const uint8_t *frame, size_t frame_len,
                                 struct tollmeander_report *report);

/*
 * The guest's side: lays a frame into granted pages, 4096 octets to a page from
 * octet 0 of the page on, the last perhaps shorter, and posts it on a transmit
 * ring as one packet, with a data slot for each page.
 *
 * replies_read:   replies that the driver has read so far, modulo 2^32. Free slots
 *                 are 256 - (uint32_t)(req_prod - replies_read), and none where the
 *                 difference is above 256.
 * ring:           the ring page.
 * grants, window: the driver's own pages and its grants to them.
 * references:     grant references, from an address divisible by 4. The frame uses
 *                 the first ceiling(frame_len / 4096) of them; those behind are not
 *                 looked at.
 * references_len: how many references, not octets.
 * frame:          the frame, read only.
 * gso:            0: no gso is asked for, and the next two are not looked at.
 *                 Anything else: they are the gso, and the packet has an extra.
 * gso_size:       the segment size, 1 or more.
 * gso_type:       1 TCP over IPv4, 2 TCP over IPv6.
 * report:         all of it is written.
 *
 * Answers, in the order in which they are looked for: BAD_PAGE, BAD_LENGTH,
 * BAD_GSO, BAD_PAGES, NO_SLOTS, DONE.
 *
 * Needs:  of the driver what duties 1 to 3 of "What the host owes" say.
 * Leaves: after DONE the frame in the pages, a slot for each page and one for the
 *         gso, if any, from req_prod on, and req_prod behind them. Each data slot's
 *         id is its slot counter modulo 65536, its offset 0. After every other
 *         answer all that was lent is as it was.
 * Never:  writes a page unless the whole packet is posted, octets of a page beyond
 *         the piece, or a slot that is not free by replies_read; writes grants,
 *         references or frame, req_event, rsp_prod or rsp_event.
 *
 * As long as the slots, req_prod, the grants and the pages are as post left them,
 * tollmeander_transmit_take at the packet's first slot is DONE and gives the same
 * frame and gso (unhalted, with room for the frame, a free record and no
 * BAD_RECORDS). No packet of that total with fewer data slots is DONE.
 *
 * NOTE: gso_size and gso_type are narrower than int: 65537 and 257 arrive as 1.
 *       Test a wider number before it is passed.
 * NOTE: checksum_blank and data_validated cannot be asked for: the two bits of the
 *       first slot are 0, also with gso.
 * NOTE: replies_read is the driver's own count. With rsp_prod in its place replies
 *       are written over that the driver has not read, and the backend decides what
 *       is free; with a count past the replies sent, slots that the backend has not
 *       read.
 * NOTE: A page is the packet's until its reply was read. Give each packet in
 *       flight pages of its own.
 * NOTE: The octets of the last page behind the piece stay as they were, and the
 *       backend can read them. Clear them if it is not trusted.
 * NOTE: On a page that the backend has mapped too, the slots must be seen before
 *       req_prod, and notify must be decided after it. front_ring (host/ in the
 *       sources) lends a private page and does both.
 */
uint32_t tollmeander_transmit_post(uint32_t replies_read,
                                   uint8_t *ring, size_t ring_len,
                                   const uint8_t *grants, size_t grants_len,
                                   uint8_t *window, size_t window_len,
                                   const uint32_t *references, size_t references_len,
                                   const uint8_t *frame, size_t frame_len,
                                   uint32_t gso, uint16_t gso_size, uint8_t gso_type,
                                   struct tollmeander_report *report);

#ifdef __cplusplus
}
#endif

#endif
