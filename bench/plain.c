/*
 * The four calls in plain C, with memcpy, as one would write them by hand.
 *
 * A slot is read once, into a value, and that value decides; its id is read when
 * the reply leaves. So a guest that rewrites the page meanwhile gets no access that
 * it is not granted. Nothing is written before everything is tested. A packet of
 * one slot and a frame of one page, which most are, take a path without tables of
 * slots or pages. records.h has the list of held packets.
 */
#include "plain.h"

#include <stdbool.h>
#include <string.h>

#include "octets.h"
#include "records.h"

enum {
    FLAG_CHECKSUM_BLANK = 1,
    FLAG_DATA_VALIDATED = 2,
    FLAG_MORE_DATA = 4,
    FLAG_EXTRA_FOLLOWS = 8,

    EXTRA_GSO = 1,
    EXTRA_FLAG_ANOTHER = 1,
    GSO_TCPV4 = 1,
    GSO_TCPV6 = 2,

    FRAME_PAGES_MAX = 16,

    /* Start 0 and length 4096, as the last four bytes of a grant word. */
    WHOLE_PAGE = TOLLMEANDER_PAGE_SIZE << 16
};

/* What all calls are lent. */
struct lent {
    uint32_t *consumed;         /* by take and put */
    uint32_t *replied;          /* by take and finish; by put the one above */
    uint8_t *ring;
    const uint8_t *grants;
    size_t grant_words;
    size_t window_pages;
    struct tollmeander_report *report;
};

/* A data slot of the transmit ring. */
struct data_slot {
    uint32_t gref;
    uint16_t offset;
    uint16_t flags;
    uint16_t size;
};

/* A packet as it stands on the transmit ring. */
struct packet {
    uint32_t extras;
    uint32_t gso_size;          /* of the last extra */
    uint32_t gso_type;
    uint32_t data_slots;
    uint32_t later_sizes;       /* of the data slots after the first, together */
    struct data_slot data[TOLLMEANDER_PACKET_DATA_MAX];
};

/* What a grant gives: a range of a page. */
struct range {
    size_t page;                /* where the page begins in the window */
    uint32_t start;             /* in the page */
    uint32_t end;
};

/* A part of the window that goes into a frame. */
struct part {
    const uint8_t *from;
    size_t length;
};

/* A part of the window that a piece of a frame goes to. */
struct piece {
    uint8_t *to;
    size_t length;
};

/* A frame that is to be posted. */
struct posting {
    const uint32_t *references;
    size_t references_len;
    const uint8_t *frame;
    size_t frame_len;
    uint32_t replies_read;
    uint32_t extras;            /* 1 if gso is asked for, else 0 */
    uint16_t gso_size;
    uint8_t gso_type;
};

/* Why a packet or a frame is refused; cause 0 if it is not. */
struct verdict {
    uint32_t cause;
    uint32_t place;
};

static uint8_t *slot_at(uint8_t *ring, uint32_t n, size_t slot_size)
{
    return ring + TOLLMEANDER_RING_FIRST_SLOT + slot_size * (n % TOLLMEANDER_RING_SLOTS);
}

static uint8_t *transmit_slot(uint8_t *ring, uint32_t n)
{
    return slot_at(ring, n, TOLLMEANDER_TRANSMIT_SLOT_SIZE);
}

static uint8_t *receive_slot(uint8_t *ring, uint32_t n)
{
    return slot_at(ring, n, TOLLMEANDER_RECEIVE_SLOT_SIZE);
}

/* Whether a reference is granted with all these bits, and what it grants. */
static inline bool find_range(const struct lent *lent, uint32_t gref, uint32_t bits,
                              struct range *range)
{
    const uint8_t *word;
    uint32_t access, number;

    if (gref >= lent->grant_words)
        return false;
    word = lent->grants + (size_t)gref * TOLLMEANDER_GRANT_WORD_SIZE;
    access = get32(word);
    number = access >> TOLLMEANDER_GRANT_PAGE_BIT;
    range->page = (size_t)number * TOLLMEANDER_PAGE_SIZE;
    range->start = get16(word + TOLLMEANDER_GRANT_START);
    range->end = range->start + get16(word + TOLLMEANDER_GRANT_LENGTH);
    return (access & bits) == bits && range->end <= TOLLMEANDER_PAGE_SIZE &&
           number < lent->window_pages;
}

/* Reports an answer that has nothing else to tell. */
static uint32_t tell(struct tollmeander_report *report, uint32_t answer)
{
    *report = (struct tollmeander_report){ .answer = answer };
    return answer;
}

static uint32_t halt(uint32_t *halted, struct tollmeander_report *report, uint32_t answer)
{
    *halted = 1;
    return tell(report, answer);
}

/* Asks for an event at the next request. */
static uint32_t ask_event(const struct lent *lent, uint32_t req_prod, uint32_t answer)
{
    put32(lent->ring + TOLLMEANDER_RING_REQ_EVENT, req_prod + 1);
    return tell(lent->report, answer);
}

/* Moves counter and rsp_prod past slots that are replied to; whether to notify. */
static bool publish(const struct lent *lent, uint32_t slots)
{
    uint32_t new = *lent->replied + slots;

    *lent->replied = new;
    put32(lent->ring + TOLLMEANDER_RING_RSP_PROD, new);
    return new - get32(lent->ring + TOLLMEANDER_RING_RSP_EVENT) < slots;
}

/* Ends a call whose slots get an error for a reply. */
static uint32_t spoil(const struct lent *lent, struct verdict verdict, uint32_t slots, bool notify)
{
    *lent->report = (struct tollmeander_report){
        .answer = TOLLMEANDER_SPOILED,
        .cause = verdict.cause,
        .place = verdict.place,
        .slots = slots,
        .notify = notify,
    };
    return TOLLMEANDER_SPOILED;
}

static struct data_slot read_data_slot(const uint8_t *from)
{
    return (struct data_slot){
        .gref = get32(from),
        .offset = get16(from + 4),
        .flags = get16(from + 6),
        .size = get16(from + 10),
    };
}

/* Reads extras. The answer is DONE if they are all there, else MISSHAPEN or WAITING. */
static uint32_t read_extras(uint8_t *ring, uint32_t first, uint32_t posted,
                            struct packet *packet)
{
    uint32_t extras = 0;
    uint8_t flags;

    do {
        const uint8_t *from = transmit_slot(ring, first + 1 + extras);

        if (extras == TOLLMEANDER_PACKET_EXTRAS_MAX)
            return TOLLMEANDER_MISSHAPEN;
        if (1 + extras == posted)
            return TOLLMEANDER_WAITING;
        if (from[0] != EXTRA_GSO)
            return TOLLMEANDER_MISSHAPEN;
        flags = from[1];
        packet->gso_size = get16(from + 2);
        packet->gso_type = from[4];
        extras++;
    } while (flags & EXTRA_FLAG_ANOTHER);
    packet->extras = extras;
    return TOLLMEANDER_DONE;
}

/* Reads the data slots after the first, with answers as above. */
static uint32_t read_more_data(uint8_t *ring, uint32_t first, uint32_t posted,
                               struct packet *packet)
{
    struct data_slot *slot = packet->data;
    uint32_t slots = 1 + packet->extras;
    uint32_t sizes = 0;

    do {
        if (slots == packet->extras + TOLLMEANDER_PACKET_DATA_MAX)
            return TOLLMEANDER_MISSHAPEN;
        if (slots == posted)
            return TOLLMEANDER_WAITING;
        *++slot = read_data_slot(transmit_slot(ring, first + slots));
        if (slot->flags & FLAG_EXTRA_FOLLOWS)
            return TOLLMEANDER_MISSHAPEN;
        sizes += slot->size;
        slots++;
    } while (slot->flags & FLAG_MORE_DATA);
    packet->data_slots = slots - packet->extras;
    packet->later_sizes = sizes;
    return TOLLMEANDER_DONE;
}

/* Reads what follows the first slot of a packet, with answers as above. */
static uint32_t read_packet(uint8_t *ring, uint32_t first, uint32_t posted,
                            struct data_slot head, struct packet *packet)
{
    uint32_t answer = TOLLMEANDER_DONE;

    packet->extras = 0;
    packet->gso_size = 0;
    packet->gso_type = 0;
    packet->data_slots = 1;
    packet->later_sizes = 0;
    packet->data[0] = head;
    if (head.flags & FLAG_EXTRA_FOLLOWS)
        answer = read_extras(ring, first, posted, packet);
    if (answer == TOLLMEANDER_DONE && head.flags & FLAG_MORE_DATA)
        answer = read_more_data(ring, first, posted, packet);
    return answer;
}

/* The cause that the sizes give, or 0. */
static uint32_t judge_sizes(uint32_t total, uint32_t later_sizes)
{
    if (total < TOLLMEANDER_FRAME_MIN)
        return TOLLMEANDER_CAUSE_SHORT;
    return later_sizes > total ? TOLLMEANDER_CAUSE_SIZES : 0;
}

/* Finds what a data slot gives to the frame; the cause to refuse it, or 0. */
static inline uint32_t find_part(const struct lent *lent, const uint8_t *window,
                                 const struct data_slot *slot, uint32_t length, struct part *part)
{
    struct range range;

    if (!find_range(lent, slot->gref, TOLLMEANDER_GRANTED, &range))
        return TOLLMEANDER_CAUSE_GRANT;
    if (slot->offset < range.start || slot->offset + length > range.end)
        return TOLLMEANDER_CAUSE_OFFSET;
    *part = (struct part){ window + range.page + slot->offset, length };
    return 0;
}

static bool gso_is_good(uint32_t size, uint32_t type)
{
    return size != 0 && (type == GSO_TCPV4 || type == GSO_TCPV6);
}

/* Finds the parts of a packet, or the first cause to refuse it. */
static struct verdict judge(const struct lent *lent, const uint8_t *window,
                            const struct packet *packet, struct part *parts)
{
    const struct data_slot *slot = packet->data;
    uint32_t cause = judge_sizes(slot->size, packet->later_sizes);

    if (cause == 0)
        cause = find_part(lent, window, slot, slot->size - packet->later_sizes, parts);
    if (cause != 0)
        return (struct verdict){ cause, 0 };
    for (uint32_t i = 1; i < packet->data_slots; i++) {
        slot = &packet->data[i];
        cause = find_part(lent, window, slot, slot->size, &parts[i]);
        if (cause != 0)
            return (struct verdict){ cause, packet->extras + i };
    }
    if (packet->extras != 0 && !gso_is_good(packet->gso_size, packet->gso_type))
        return (struct verdict){ TOLLMEANDER_CAUSE_GSO, packet->extras };
    return (struct verdict){ 0, 0 };
}

/* Joins parts to a frame. */
static void gather(const struct part *parts, uint32_t count, uint8_t *frame)
{
    for (uint32_t i = 0; i < count; i++) {
        memcpy(frame, parts[i].from, parts[i].length);
        frame += parts[i].length;
    }
}

/* Replies to a data slot with the id that stands in it. */
static void reply_data(uint8_t *ring, uint32_t n, int32_t status)
{
    uint8_t *slot = transmit_slot(ring, n);

    put32(slot, get16(slot + 8) | (uint32_t)status << 16);
}

/* Replies to every slot of a packet, the first of which has counter n. */
static void reply_packet(uint8_t *ring, uint32_t n, uint32_t slots, uint32_t extras,
                         int32_t status)
{
    reply_data(ring, n, status);
    for (uint32_t i = 1; i <= extras; i++)
        put32(transmit_slot(ring, n + i), (uint32_t)TOLLMEANDER_REPLY_NULL << 16);
    for (uint32_t i = 1 + extras; i < slots; i++)
        reply_data(ring, n + i, status);
}

/* Consumes a packet into the first free record. */
static void hold(const struct lent *lent, const struct records *records,
                 struct tollmeander_held held)
{
    records->list[records->first_free] = held;
    *lent->consumed += held.slots;
}

/* Ends a call whose packet is in the frame: it is held until it is finished. */
static uint32_t hand_over(const struct lent *lent, const struct records *records,
                          const struct data_slot *head, uint32_t slots, uint32_t extras,
                          uint32_t gso_size, uint32_t gso_type)
{
    uint32_t ticket = *lent->consumed;

    hold(lent, records, (struct tollmeander_held){ ticket, slots, extras,
                                                   TOLLMEANDER_REPLY_OKAY, 0 });
    *lent->report = (struct tollmeander_report){
        .answer = TOLLMEANDER_DONE,
        .slots = slots,
        .total = head->size,
        .checksum_blank = head->flags & FLAG_CHECKSUM_BLANK ? 1 : 0,
        .data_validated = head->flags & FLAG_DATA_VALIDATED ? 1 : 0,
        .gso_size = gso_size,
        .gso_type = gso_type,
        .ticket = ticket,
    };
    return TOLLMEANDER_DONE;
}

/* Refuses a packet. It leaves at once if nothing is held, else behind those that are. */
static uint32_t refuse(const struct lent *lent, const struct records *records,
                       struct verdict verdict, uint32_t slots, uint32_t extras)
{
    uint32_t n = *lent->consumed;
    bool notify = false;

    if (is_full(records))
        return tell(lent->report, TOLLMEANDER_NO_RECORD);
    hold(lent, records, (struct tollmeander_held){ n, slots, extras, TOLLMEANDER_REPLY_ERROR, 1 });
    if (records->held_slots == 0) {
        reply_packet(lent->ring, n, slots, extras, TOLLMEANDER_REPLY_ERROR);
        records->list[records->first_free] = (struct tollmeander_held){ 0 };
        notify = publish(lent, slots);
    }
    return spoil(lent, verdict, slots, notify);
}

/* Takes a packet of one slot. */
static uint32_t take_one(const struct lent *lent, const struct records *records,
                         const struct data_slot *slot, const uint8_t *window, uint8_t *frame,
                         size_t frame_len)
{
    uint32_t cause = judge_sizes(slot->size, 0);
    struct part part;

    if (cause == 0)
        cause = find_part(lent, window, slot, slot->size, &part);
    if (cause != 0)
        return refuse(lent, records, (struct verdict){ cause, 0 }, 1, 0);
    if (frame_len < slot->size)
        return tell(lent->report, TOLLMEANDER_NO_ROOM);
    if (is_full(records))
        return tell(lent->report, TOLLMEANDER_NO_RECORD);
    memcpy(frame, part.from, part.length);
    return hand_over(lent, records, slot, 1, 0, 0, 0);
}

/* Takes a whole packet of any number of slots. */
static uint32_t take_all(const struct lent *lent, const struct records *records,
                         const struct packet *packet, const uint8_t *window, uint8_t *frame,
                         size_t frame_len)
{
    uint32_t slots = packet->data_slots + packet->extras;
    struct part parts[TOLLMEANDER_PACKET_DATA_MAX];
    struct verdict verdict = judge(lent, window, packet, parts);

    if (verdict.cause != 0)
        return refuse(lent, records, verdict, slots, packet->extras);
    if (frame_len < packet->data[0].size)
        return tell(lent->report, TOLLMEANDER_NO_ROOM);
    if (is_full(records))
        return tell(lent->report, TOLLMEANDER_NO_RECORD);
    gather(parts, packet->data_slots, frame);
    return hand_over(lent, records, &packet->data[0], slots, packet->extras, packet->gso_size,
                     packet->gso_type);
}

/* Takes the packet at the counter, if a whole one is posted. */
static uint32_t take_posted(const struct lent *lent, const struct records *records,
                            uint32_t *halted, uint32_t req_prod, const uint8_t *window,
                            uint8_t *frame, size_t frame_len)
{
    uint32_t first = *lent->consumed;
    uint32_t posted = req_prod - first;
    struct packet packet;
    struct data_slot head;
    uint32_t shape;

    if (posted == 0)
        return ask_event(lent, req_prod, TOLLMEANDER_EMPTY);
    head = read_data_slot(transmit_slot(lent->ring, first));
    if (!(head.flags & (FLAG_MORE_DATA | FLAG_EXTRA_FOLLOWS)))
        return take_one(lent, records, &head, window, frame, frame_len);
    shape = read_packet(lent->ring, first, posted, head, &packet);
    if (shape == TOLLMEANDER_MISSHAPEN)
        return halt(halted, lent->report, TOLLMEANDER_MISSHAPEN);
    if (shape == TOLLMEANDER_WAITING)
        return ask_event(lent, req_prod, TOLLMEANDER_WAITING);
    return take_all(lent, records, &packet, window, frame, frame_len);
}

uint32_t plain_transmit_take(uint32_t *consumed, uint32_t *replied, uint32_t *halted,
                             uint8_t *ring, size_t ring_len,
                             const uint8_t *grants, size_t grants_len,
                             const uint8_t *window, size_t window_len,
                             struct tollmeander_held *held, size_t held_len,
                             uint8_t *frame, size_t frame_len,
                             struct tollmeander_report *report)
{
    const struct lent lent = { consumed, replied, ring, grants,
                               grants_len / TOLLMEANDER_GRANT_WORD_SIZE,
                               window_len / TOLLMEANDER_PAGE_SIZE, report };
    struct records records;
    uint32_t req_prod, unanswered;

    if (ring_len != TOLLMEANDER_PAGE_SIZE)
        return tell(report, TOLLMEANDER_BAD_PAGE);
    if (!read_records(&records, held, held_len, *consumed, *replied))
        return tell(report, TOLLMEANDER_BAD_RECORDS);
    if (*halted)
        return tell(report, TOLLMEANDER_HALTED);
    req_prod = get32(ring + TOLLMEANDER_RING_REQ_PROD);
    unanswered = req_prod - *replied;
    if (unanswered > TOLLMEANDER_RING_SLOTS || unanswered < records.held_slots)
        return halt(halted, report, TOLLMEANDER_OVERFLOW);
    return take_posted(&lent, &records, halted, req_prod, window, frame, frame_len);
}

/* Replies to the finished packets from the oldest on and frees their records; their slots. */
static uint32_t release(const struct lent *lent, const struct records *records)
{
    uint32_t first = *lent->replied;
    uint32_t slots = 0;

    while (slots < records->held_slots) {
        struct tollmeander_held *held = &records->list[records->place_at[slots]];
        uint32_t count = held->slots;

        if (held->finished == 0)
            break;
        reply_packet(lent->ring, first + slots, count, held->extras, held->status);
        *held = (struct tollmeander_held){ 0 };
        slots += count;
    }
    return slots;
}

uint32_t plain_transmit_finish(uint32_t consumed, uint32_t *replied,
                               uint8_t *ring, size_t ring_len,
                               struct tollmeander_held *held, size_t held_len,
                               uint32_t ticket, int32_t status,
                               struct tollmeander_report *report)
{
    const struct lent lent = { .replied = replied, .ring = ring, .report = report };
    struct records records;
    struct tollmeander_held *record;
    uint32_t slots;
    bool notify;

    if (ring_len != TOLLMEANDER_PAGE_SIZE)
        return tell(report, TOLLMEANDER_BAD_PAGE);
    if (!read_records(&records, held, held_len, consumed, *replied))
        return tell(report, TOLLMEANDER_BAD_RECORDS);
    record = find_record(&records, ticket - *replied);
    if (record == NULL || record->finished != 0 || !is_status(status))
        return tell(report, TOLLMEANDER_BAD_TICKET);
    record->status = status;
    record->finished = 1;
    slots = release(&lent, &records);
    notify = slots != 0 && publish(&lent, slots);
    *report = (struct tollmeander_report){ .answer = TOLLMEANDER_DONE, .slots = slots,
                                           .notify = notify };
    return TOLLMEANDER_DONE;
}

/* Whether a request's grant is fit; where its page begins in the window. */
static inline bool find_request(const struct lent *lent, uint32_t n, size_t *page)
{
    struct range range;

    if (!find_range(lent, get32(receive_slot(lent->ring, n) + 4),
                    TOLLMEANDER_GRANTED | TOLLMEANDER_GRANT_WRITABLE, &range))
        return false;
    *page = range.page;
    return range.start == 0 && range.end == TOLLMEANDER_PAGE_SIZE;
}

/* Finds where the pieces of a frame go, or the first request that is not fit. */
static struct verdict find_pieces(const struct lent *lent, uint8_t *window, size_t frame_len,
                                  struct piece *pieces)
{
    uint32_t first = *lent->consumed;
    size_t left = frame_len;

    for (uint32_t i = 0; left > 0; i++) {
        size_t length = left < TOLLMEANDER_PAGE_SIZE ? left : TOLLMEANDER_PAGE_SIZE;
        size_t page;

        if (!find_request(lent, first + i, &page))
            return (struct verdict){ TOLLMEANDER_CAUSE_GRANT, i };
        pieces[i] = (struct piece){ window + page, length };
        left -= length;
    }
    return (struct verdict){ 0, 0 };
}

/* Replies to a request, whose id already stands where the reply's goes. */
static void reply_receive(uint8_t *ring, uint32_t n, uint16_t flags, int16_t status)
{
    uint8_t *to = receive_slot(ring, n);

    put16(to + 2, 0);
    put32(to + 4, flags | (uint32_t)(uint16_t)status << 16);
}

/* Ends a call whose frame is in its pages and whose requests are replied to. */
static uint32_t deliver(const struct lent *lent, uint32_t count, size_t frame_len)
{
    bool notify = publish(lent, count);

    *lent->report = (struct tollmeander_report){
        .answer = TOLLMEANDER_DONE,
        .slots = count,
        .notify = notify,
        .total = (uint32_t)frame_len,
    };
    return TOLLMEANDER_DONE;
}

/* Puts a frame of one page. */
static uint32_t put_one(const struct lent *lent, uint8_t *window, const uint8_t *frame,
                        size_t frame_len)
{
    uint32_t n = *lent->consumed;
    size_t page;

    if (!find_request(lent, n, &page)) {
        reply_receive(lent->ring, n, 0, TOLLMEANDER_REPLY_ERROR);
        return spoil(lent, (struct verdict){ TOLLMEANDER_CAUSE_GRANT, 0 }, 1, publish(lent, 1));
    }
    memcpy(window + page, frame, frame_len);
    reply_receive(lent->ring, n, 0, (int16_t)frame_len);
    return deliver(lent, 1, frame_len);
}

/* Puts a frame of any number of pages. */
static uint32_t put_all(const struct lent *lent, uint32_t count, uint8_t *window,
                        const uint8_t *frame, size_t frame_len)
{
    uint32_t first = *lent->consumed;
    struct piece pieces[FRAME_PAGES_MAX];
    struct verdict verdict = find_pieces(lent, window, frame_len, pieces);

    if (verdict.cause != 0) {
        for (uint32_t i = 0; i < count; i++)
            reply_receive(lent->ring, first + i, 0, TOLLMEANDER_REPLY_ERROR);
        return spoil(lent, verdict, count, publish(lent, count));
    }
    for (uint32_t i = 0; i < count; i++) {
        memcpy(pieces[i].to, frame, pieces[i].length);
        frame += pieces[i].length;
        reply_receive(lent->ring, first + i, i + 1 < count ? FLAG_MORE_DATA : 0,
                      (int16_t)pieces[i].length);
    }
    return deliver(lent, count, frame_len);
}

/* The pages that a frame takes. */
static uint32_t pages_of(size_t frame_len)
{
    return ((uint32_t)frame_len + TOLLMEANDER_PAGE_SIZE - 1) / TOLLMEANDER_PAGE_SIZE;
}

uint32_t plain_receive_put(uint32_t *consumed, uint32_t *halted,
                           uint8_t *ring, size_t ring_len,
                           const uint8_t *grants, size_t grants_len,
                           uint8_t *window, size_t window_len,
                           const uint8_t *frame, size_t frame_len,
                           struct tollmeander_report *report)
{
    const struct lent lent = { consumed, consumed, ring, grants,
                               grants_len / TOLLMEANDER_GRANT_WORD_SIZE,
                               window_len / TOLLMEANDER_PAGE_SIZE, report };
    uint32_t req_prod, posted, count;

    if (ring_len != TOLLMEANDER_PAGE_SIZE)
        return tell(report, TOLLMEANDER_BAD_PAGE);
    if (frame_len < TOLLMEANDER_FRAME_MIN || frame_len > TOLLMEANDER_FRAME_MAX)
        return tell(report, TOLLMEANDER_BAD_LENGTH);
    if (*halted)
        return tell(report, TOLLMEANDER_HALTED);
    req_prod = get32(ring + TOLLMEANDER_RING_REQ_PROD);
    posted = req_prod - *consumed;
    if (posted > TOLLMEANDER_RING_SLOTS)
        return halt(halted, report, TOLLMEANDER_OVERFLOW);
    count = pages_of(frame_len);
    if (posted < count)
        return ask_event(&lent, req_prod, TOLLMEANDER_NO_BUFFERS);
    if (count == 1)
        return put_one(&lent, window, frame, frame_len);
    return put_all(&lent, count, window, frame, frame_len);
}

/* Whether a reference is fit for receive; where its page begins in the window. */
static inline bool find_page(const struct lent *lent, uint32_t gref, size_t *page)
{
    const uint32_t bits = TOLLMEANDER_GRANTED | TOLLMEANDER_GRANT_WRITABLE;
    const uint8_t *word;
    uint32_t access, number;

    if (gref >= lent->grant_words)
        return false;
    word = lent->grants + (size_t)gref * TOLLMEANDER_GRANT_WORD_SIZE;
    access = get32(word);
    number = access >> TOLLMEANDER_GRANT_PAGE_BIT;
    *page = (size_t)number * TOLLMEANDER_PAGE_SIZE;
    return (access & bits) == bits && number < lent->window_pages &&
           get32(word + TOLLMEANDER_GRANT_START) == WHOLE_PAGE;
}

/* Whether so many slots are free behind req_prod. */
static bool has_room(const struct posting *posting, uint32_t req_prod, uint32_t slots)
{
    return req_prod - posting->replies_read <= TOLLMEANDER_RING_SLOTS - slots;
}

/* Writes a data slot whose part begins with its page. */
static void write_data(uint8_t *ring, uint32_t n, uint32_t gref, uint32_t flags, size_t size)
{
    uint8_t *to = transmit_slot(ring, n);

    put32(to, gref);
    put32(to + 4, flags << 16);
    put32(to + 8, (n & 0xffff) | (uint32_t)size << 16);
}

/* Writes the extra that asks for gso. */
static void write_extra(uint8_t *ring, uint32_t n, uint16_t gso_size, uint8_t gso_type)
{
    uint8_t *to = transmit_slot(ring, n);

    put32(to, EXTRA_GSO | (uint32_t)gso_size << 16);
    put32(to + 4, gso_type);
    put32(to + 8, 0);
}

/* Writes a packet's first slot and, if gso is asked for, its extra. */
static inline void write_head(const struct lent *lent, const struct posting *posting, uint32_t n,
                              uint32_t gref, uint32_t flags)
{
    if (posting->extras == 0) {
        write_data(lent->ring, n, gref, flags, posting->frame_len);
        return;
    }
    write_data(lent->ring, n, gref, flags | FLAG_EXTRA_FOLLOWS, posting->frame_len);
    write_extra(lent->ring, n + 1, posting->gso_size, posting->gso_type);
}

/* Writes the data slots after the first; that of piece i has counter n + i. */
static inline void write_rest(const struct lent *lent, const struct posting *posting, uint32_t n,
                              uint32_t count, const struct piece *pieces)
{
    uint32_t last = count - 1;

    for (uint32_t i = 1; i < last; i++)
        write_data(lent->ring, n + i, posting->references[i], FLAG_MORE_DATA, pieces[i].length);
    write_data(lent->ring, n + last, posting->references[last], 0, pieces[last].length);
}

/* Ends a call whose frame is in its pages and whose slots are written. */
static uint32_t post_done(const struct lent *lent, uint32_t req_prod, uint32_t slots)
{
    uint32_t new = req_prod + slots;

    put32(lent->ring + TOLLMEANDER_RING_REQ_PROD, new);
    *lent->report = (struct tollmeander_report){
        .answer = TOLLMEANDER_DONE,
        .slots = slots,
        .notify = new - get32(lent->ring + TOLLMEANDER_RING_REQ_EVENT) < slots,
    };
    return TOLLMEANDER_DONE;
}

/* Posts a frame of one page. */
static uint32_t post_one(const struct lent *lent, const struct posting *posting, uint8_t *window)
{
    uint32_t req_prod = get32(lent->ring + TOLLMEANDER_RING_REQ_PROD);
    uint32_t slots = 1 + posting->extras;
    uint32_t gref;
    size_t page;

    if (posting->references_len == 0)
        return tell(lent->report, TOLLMEANDER_BAD_PAGES);
    gref = posting->references[0];
    if (!find_page(lent, gref, &page))
        return tell(lent->report, TOLLMEANDER_BAD_PAGES);
    if (!has_room(posting, req_prod, slots))
        return tell(lent->report, TOLLMEANDER_NO_SLOTS);
    memcpy(window + page, posting->frame, posting->frame_len);
    write_head(lent, posting, req_prod, gref, 0);
    return post_done(lent, req_prod, slots);
}

/* Whether two pieces of a frame go to one page. */
static bool has_pair(const struct piece *pieces, uint32_t count)
{
    for (uint32_t i = 1; i < count; i++)
        for (uint32_t j = 0; j < i; j++)
            if (pieces[j].to == pieces[i].to)
                return true;
    return false;
}

/* Whether all references of a frame are fit; where its pieces go. */
static bool find_places(const struct lent *lent, const struct posting *posting, uint8_t *window,
                        struct piece *pieces)
{
    size_t left = posting->frame_len;

    for (uint32_t i = 0; left > 0; i++) {
        size_t length = left < TOLLMEANDER_PAGE_SIZE ? left : TOLLMEANDER_PAGE_SIZE;
        size_t page;

        if (!find_page(lent, posting->references[i], &page))
            return false;
        pieces[i] = (struct piece){ window + page, length };
        left -= length;
    }
    return true;
}

/* Posts a frame of several pages. */
static uint32_t post_all(const struct lent *lent, const struct posting *posting, uint32_t count,
                         uint8_t *window)
{
    uint32_t req_prod = get32(lent->ring + TOLLMEANDER_RING_REQ_PROD);
    uint32_t slots = count + posting->extras;
    const uint8_t *frame = posting->frame;
    struct piece pieces[FRAME_PAGES_MAX];

    if (posting->references_len < count || !find_places(lent, posting, window, pieces) ||
        has_pair(pieces, count))
        return tell(lent->report, TOLLMEANDER_BAD_PAGES);
    if (!has_room(posting, req_prod, slots))
        return tell(lent->report, TOLLMEANDER_NO_SLOTS);
    for (uint32_t i = 0; i < count; i++) {
        memcpy(pieces[i].to, frame, pieces[i].length);
        frame += pieces[i].length;
    }
    write_head(lent, posting, req_prod, posting->references[0], FLAG_MORE_DATA);
    write_rest(lent, posting, req_prod + posting->extras, count, pieces);
    return post_done(lent, req_prod, slots);
}

uint32_t plain_transmit_post(uint32_t replies_read,
                             uint8_t *ring, size_t ring_len,
                             const uint8_t *grants, size_t grants_len,
                             uint8_t *window, size_t window_len,
                             const uint32_t *references, size_t references_len,
                             const uint8_t *frame, size_t frame_len,
                             uint32_t gso, uint16_t gso_size, uint8_t gso_type,
                             struct tollmeander_report *report)
{
    const struct lent lent = { NULL, NULL, ring, grants, grants_len / TOLLMEANDER_GRANT_WORD_SIZE,
                               window_len / TOLLMEANDER_PAGE_SIZE, report };
    const struct posting posting = { references, references_len, frame, frame_len, replies_read,
                                     gso != 0, gso_size, gso_type };
    uint32_t count;

    if (ring_len != TOLLMEANDER_PAGE_SIZE)
        return tell(report, TOLLMEANDER_BAD_PAGE);
    if (frame_len < TOLLMEANDER_FRAME_MIN || frame_len > TOLLMEANDER_FRAME_MAX)
        return tell(report, TOLLMEANDER_BAD_LENGTH);
    if (gso != 0 && !gso_is_good(gso_size, gso_type))
        return tell(report, TOLLMEANDER_BAD_GSO);
    count = pages_of(frame_len);
    if (count == 1)
        return post_one(&lent, &posting, window);
    return post_all(&lent, &posting, count, window);
}
