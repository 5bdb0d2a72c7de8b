#include "back_ring.h"

#include <string.h>

#include "ring_page.h"

/*
 * Transmit rings opened so far in this process, by which connections are numbered: so each has
 * its own number also where a back_transmit is zeroed, or is another guest's.
 */
static _Atomic uint32_t openings;

static bool open_ring(struct back_ring *ring, void *shared, uint32_t counter)
{
    if (ring->shared != NULL || shared == NULL || (uintptr_t)shared % RING_WORD != 0)
        return false;
    memset(ring, 0, sizeof *ring);
    ring->shared = shared;
    ring->copied = counter;
    ring->consumed = counter;
    ring->published = counter;
    set_private_word(ring->page, RING_REQ_PROD, counter);
    set_private_word(ring->page, RING_RSP_PROD, counter);
    return true;
}

bool back_transmit_open(struct back_transmit *transmit, void *shared, uint32_t counter,
                        uint32_t records)
{
    if (records == 0 || records > TOLLMEANDER_HELD_MAX ||
        !open_ring(&transmit->ring, shared, counter))
        return false;
    memset(transmit->held, 0, sizeof transmit->held);
    transmit->replied = counter;
    transmit->records = records;
    transmit->connection = atomic_fetch_add_explicit(&openings, 1, memory_order_relaxed) + 1;
    transmit->ring.slot_words = TRANSMIT_SLOT_WORDS;
    transmit->ring.reply_words = TRANSMIT_REPLY_WORDS;
    transmit->ring.reference_word = TRANSMIT_REFERENCE_WORD;
    return true;
}

bool back_receive_open(struct back_receive *receive, void *shared, uint32_t counter)
{
    if (!open_ring(&receive->ring, shared, counter))
        return false;
    receive->ring.slot_words = RECEIVE_SLOT_WORDS;
    receive->ring.reply_words = RECEIVE_REPLY_WORDS;
    receive->ring.reference_word = RECEIVE_REFERENCE_WORD;
    return true;
}

void back_ring_close(struct back_ring *ring)
{
    ring->shared = NULL;
    ring->halted = 1;
}

/* Copies the slots from ring->copied up to end, each word read once. */
static void copy_slots(struct back_ring *ring, uint32_t end)
{
    for (; ring->copied != end; ring->copied++) {
        uint32_t first = ring_slot(ring->slot_words, ring->copied);

        for (uint32_t at = first; at < first + ring->slot_words; at++)
            set_private_word(ring->page, at, atomic_load_explicit(&ring->shared->word[at],
                                                                  memory_order_relaxed));
        ring->reference[ring->copied % TOLLMEANDER_RING_SLOTS] =
            private_word(ring->page, first + ring->reference_word);
    }
}

/* Replies that calls have written and that are not published. */
static uint32_t unpublished(const struct back_ring *ring)
{
    return private_word(ring->page, RING_RSP_PROD) - ring->published;
}

/*
 * Takes over the slots that req_prod covers for the first time; whether it brought any.
 * A req_prod that went back within the copied slots takes none of them back. One that is
 * more than 256 ahead of the replies, or behind the slots consumed, is lent as it is: the
 * library halts. So no slot is copied over one that is not replied to.
 */
static bool look(struct back_ring *ring)
{
    uint32_t known = ring->copied;
    uint32_t held = ring->consumed - ring->published;
    uint32_t req_prod, posted;

    if (ring->shared == NULL || ring->halted || unpublished(ring) > 0)
        return false;
    req_prod = atomic_load_explicit(&ring->shared->word[RING_REQ_PROD], memory_order_acquire);
    posted = req_prod - ring->consumed;
    if (posted <= known - ring->consumed)
        req_prod = known;
    else if (posted <= TOLLMEANDER_RING_SLOTS - held)
        copy_slots(ring, req_prod);
    set_private_word(ring->page, RING_REQ_PROD, req_prod);
    return req_prod != known;
}

void back_ring_look(struct back_ring *ring)
{
    look(ring);
}

uint32_t back_ring_reference(const struct back_ring *ring, uint32_t n)
{
    return ring->reference[n % TOLLMEANDER_RING_SLOTS];
}

uint32_t back_transmit_take_copied(struct back_transmit *transmit,
                                   const struct guest_memory *memory,
                                   uint8_t *frame, size_t frame_len,
                                   struct tollmeander_report *report)
{
    struct back_ring *ring = &transmit->ring;

    if (ring->shared == NULL)
        ring->halted = 1;
    tollmeander_transmit_take(&ring->consumed, &transmit->replied, &ring->halted,
                              ring->page, sizeof ring->page,
                              memory->grants, memory->grants_len,
                              memory->window, memory->window_len,
                              transmit->held, transmit->records,
                              frame, frame_len, report);
    report->notify = 0;
    return report->answer;
}

struct back_ticket back_transmit_ticket(const struct back_transmit *transmit,
                                        const struct tollmeander_report *report)
{
    struct back_ticket ticket = { 0, 0 };

    if (report->answer == TOLLMEANDER_DONE) {
        ticket.connection = transmit->connection;
        ticket.slot = report->ticket;
    }
    return ticket;
}

uint32_t back_transmit_finish_copied(struct back_transmit *transmit, struct back_ticket ticket,
                                     int32_t status, struct tollmeander_report *report)
{
    struct back_ring *ring = &transmit->ring;

    if (ring->shared == NULL || ticket.connection != transmit->connection) {
        memset(report, 0, sizeof *report);
        report->answer = TOLLMEANDER_BAD_TICKET;
        return report->answer;
    }
    tollmeander_transmit_finish(ring->consumed, &transmit->replied,
                                ring->page, sizeof ring->page,
                                transmit->held, transmit->records,
                                ticket.slot, status, report);
    report->notify = 0;
    return report->answer;
}

/* The oldest packet that is held is open: it would have left otherwise. */
bool back_transmit_oldest(const struct back_transmit *transmit, struct back_ticket *ticket)
{
    if (transmit->ring.shared == NULL || transmit->replied == transmit->ring.consumed)
        return false;
    ticket->connection = transmit->connection;
    ticket->slot = transmit->replied;
    return true;
}

uint32_t back_receive_put_copied(struct back_receive *receive, const struct guest_memory *memory,
                                 const uint8_t *frame, size_t frame_len,
                                 struct tollmeander_report *report)
{
    struct back_ring *ring = &receive->ring;

    if (ring->shared == NULL)
        ring->halted = 1;
    tollmeander_receive_put(&ring->consumed, &ring->halted, ring->page, sizeof ring->page,
                            memory->grants, memory->grants_len,
                            memory->window, memory->window_len,
                            frame, frame_len, report);
    report->notify = 0;
    return report->answer;
}

void back_receive_refuse(struct back_receive *receive, uint32_t place,
                         struct tollmeander_report *report)
{
    struct back_ring *ring = &receive->ring;

    if (report->answer != TOLLMEANDER_DONE)
        return;
    for (uint32_t n = ring->consumed - report->slots; n != ring->consumed; n++)
        set_private_word(ring->page, ring_slot(RECEIVE_SLOT_WORDS, n) + RECEIVE_STATUS_WORD,
                         (uint32_t)TOLLMEANDER_REPLY_ERROR << 16);
    report->answer = TOLLMEANDER_SPOILED;
    report->cause = TOLLMEANDER_CAUSE_GRANT;
    report->place = place;
    report->total = 0;
}

/* Writes the replies up to the private rsp_prod to the guest's page, and then rsp_prod. */
static void publish_replies(struct back_ring *ring)
{
    uint32_t end = private_word(ring->page, RING_RSP_PROD);

    for (; ring->published != end; ring->published++) {
        uint32_t first = ring_slot(ring->slot_words, ring->published);

        for (uint32_t at = first; at < first + ring->reply_words; at++)
            atomic_store_explicit(&ring->shared->word[at], private_word(ring->page, at),
                                  memory_order_relaxed);
    }
    atomic_store_explicit(&ring->shared->word[RING_RSP_PROD], end, memory_order_release);
}

/* Whether the guest waits for one of the last replies published. */
static bool guest_waits(struct back_ring *ring, uint32_t slots)
{
    uint32_t rsp_event;

    /* Either we read the rsp_event that the guest has just written, or it reads our rsp_prod. */
    atomic_thread_fence(memory_order_seq_cst);
    rsp_event = atomic_load_explicit(&ring->shared->word[RING_RSP_EVENT], memory_order_relaxed);
    return ring->published - rsp_event < slots;
}

bool back_ring_publish(struct back_ring *ring)
{
    uint32_t slots = unpublished(ring);

    if (ring->shared == NULL || slots == 0)
        return false;
    publish_replies(ring);
    return guest_waits(ring, slots);
}

/* Publishes req_event and looks again; whether nothing was posted meanwhile. */
static bool guest_will_notify(struct back_ring *ring)
{
    atomic_store_explicit(&ring->shared->word[RING_REQ_EVENT],
                          private_word(ring->page, RING_REQ_EVENT), memory_order_relaxed);
    /* Either we read the req_prod that the guest has just written, or it reads our req_event. */
    atomic_thread_fence(memory_order_seq_cst);
    return !look(ring);
}

/* Whether the last call on the copied slots asks for an event of the next one. */
static bool asks_for_more(const struct back_ring *ring)
{
    return private_word(ring->page, RING_REQ_EVENT) == ring->copied + 1;
}

bool back_ring_may_sleep(struct back_ring *ring)
{
    if (ring->shared == NULL || ring->halted)
        return true;
    return unpublished(ring) == 0 && asks_for_more(ring) && guest_will_notify(ring);
}

/*
 * Ends a call of all steps: publishes; whether to call again, as slots came in where the host
 * would sleep. That ends, since each time more of the ring's 256 are posted.
 */
static bool goes_on(struct back_ring *ring, uint32_t answer, bool *notify)
{
    *notify |= back_ring_publish(ring);
    return back_ring_next(answer) == BACK_SLEEP && !guest_will_notify(ring);
}

uint32_t back_transmit_take(struct back_transmit *transmit, const struct guest_memory *memory,
                            uint8_t *frame, size_t frame_len, struct tollmeander_report *report)
{
    bool notify = false;

    look(&transmit->ring);
    do
        back_transmit_take_copied(transmit, memory, frame, frame_len, report);
    while (goes_on(&transmit->ring, report->answer, &notify));
    report->notify = notify;
    return report->answer;
}

uint32_t back_transmit_finish(struct back_transmit *transmit, struct back_ticket ticket,
                              int32_t status, struct tollmeander_report *report)
{
    uint32_t answer = back_transmit_finish_copied(transmit, ticket, status, report);

    report->notify = answer == TOLLMEANDER_DONE && back_ring_publish(&transmit->ring);
    return answer;
}

uint32_t back_receive_put(struct back_receive *receive, const struct guest_memory *memory,
                          const uint8_t *frame, size_t frame_len,
                          struct tollmeander_report *report)
{
    bool notify = false;

    look(&receive->ring);
    do
        back_receive_put_copied(receive, memory, frame, frame_len, report);
    while (goes_on(&receive->ring, report->answer, &notify));
    report->notify = notify;
    return report->answer;
}

enum back_next back_ring_next(uint32_t answer)
{
    switch (answer) {
    case TOLLMEANDER_DONE:
    case TOLLMEANDER_SPOILED:
        return BACK_GO_ON;
    case TOLLMEANDER_EMPTY:
    case TOLLMEANDER_WAITING:
    case TOLLMEANDER_NO_BUFFERS:
        return BACK_SLEEP;
    case TOLLMEANDER_NO_RECORD:
        return BACK_WAIT_FOR_DEVICE;
    case TOLLMEANDER_HALTED:
    case TOLLMEANDER_OVERFLOW:
    case TOLLMEANDER_MISSHAPEN:
        return BACK_DISCONNECT;
    default:
        return BACK_MEND;
    }
}
