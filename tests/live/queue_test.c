/*
 * The queues of xen/ over a pretended Xen, for what real guests do not do on demand: no
 * buffers for 10 seconds, an event without work, references in several slots, copies that Xen
 * refuses in the middle of a frame, and a host that lends something wrong. And over a device that
 * confirms packets later, in another order, too late or never.
 */
#include <string.h>

#include "check.h"
#include "pretend.h"
#include "queue.h"
#include "vifs.h"

enum {
    FRAME = 100,                    /* octets of a short frame, at the beginning of page SHORT */
    SHORT = 10,
    LONG_FRAME = 9000,              /* octets of a frame in three pages from LONG on */
    LONG = 20,
    FIRST_BUFFER = 200,             /* the guest's receive pages */
    BUFFERS = 256,
    OLD_OCTET = 0xEE,               /* of them */
    MORE_DATA = 4
};

static const struct queue_offer good_offer = {
    .domid = 3, .transmit_ring = PRETEND_TRANSMIT, .receive_ring = PRETEND_RECEIVE,
    .event_channel = PRETEND_CHANNEL, .scatter_gather = true
};

static const struct xen xen;        /* pretended, so without handles */
static struct device device;
static struct queue *queue;

static uint64_t taken(uint32_t answer)
{
    return queue->count.transmit.answer[answer];
}

static uint64_t put(uint32_t answer)
{
    return queue->count.receive.answer[answer];
}

/* A UDP frame to the answerer, which sends it back. */
static void write_frame(uint32_t page, uint32_t length)
{
    uint8_t *frame = (uint8_t *)pretend.page + (size_t)TOLLMEANDER_PAGE_SIZE * page;
    const uint32_t ip = length - 14, udp = ip - 20;

    for (uint32_t i = 0; i < length; i++)
        frame[i] = (uint8_t)(i * 7);
    memcpy(frame + 12, "\x08\x00\x45", 3);
    frame[16] = (uint8_t)(ip >> 8);
    frame[17] = (uint8_t)ip;
    frame[20] = frame[21] = 0;
    frame[23] = 17;
    memcpy(frame + 30, "\x0A\x00\x00\x02", 4);
    frame[38] = (uint8_t)(udp >> 8);
    frame[39] = (uint8_t)udp;
}

static void open_queue(bool scatter_gather)
{
    struct queue_offer offer = good_offer;
    const char *why;

    memset(&pretend, 0, sizeof pretend);
    memset(&device, 0, sizeof device);
    memset(&pretend.page[FIRST_BUFFER], OLD_OCTET, (size_t)BUFFERS * TOLLMEANDER_PAGE_SIZE);
    write_frame(SHORT, FRAME);
    write_frame(LONG, LONG_FRAME);
    offer.scatter_gather = scatter_gather;
    queue = queue_connect(&xen, &device, &offer, &why);
    CHECK(queue && pretend.mapped == 2 && pretend.bound == 1);
}

static void close_queue(void)
{
    queue_disconnect(queue);
    CHECK(pretend.mapped == 0 && pretend.bound == 0 && pretend.wrong == 0);
}

/* The guest posts a data slot. */
static void post(uint32_t reference, uint32_t flags, uint32_t size)
{
    uint32_t n = pretend.transmit.word[RING_REQ_PROD];
    uint32_t first = ring_slot(TRANSMIT_SLOT_WORDS, n);

    pretend.transmit.word[first] = reference;
    pretend.transmit.word[first + 1] = flags << 16;
    pretend.transmit.word[first + 2] = (n & 0xFFFF) | size << 16;
    pretend.transmit.word[RING_REQ_PROD] = n + 1;
}

static void post_long(void)
{
    post(LONG, MORE_DATA, LONG_FRAME);
    post(LONG + 1, MORE_DATA, TOLLMEANDER_PAGE_SIZE);
    post(LONG + 2, 0, LONG_FRAME - 2 * TOLLMEANDER_PAGE_SIZE);
}

/* The guest posts a receive request. */
static void post_buffer(uint32_t reference)
{
    uint32_t n = pretend.receive.word[RING_REQ_PROD];
    uint32_t first = ring_slot(RECEIVE_SLOT_WORDS, n);

    pretend.receive.word[first] = n & 0xFFFF;
    pretend.receive.word[first + 1] = reference;
    pretend.receive.word[RING_REQ_PROD] = n + 1;
}

static void post_buffers(uint32_t count)
{
    for (uint32_t i = 0; i < count; i++)
        post_buffer(FIRST_BUFFER + pretend.receive.word[RING_REQ_PROD] % BUFFERS);
}

/* Turns until there is nothing more to do. */
static void turn(void)
{
    while (queue_turn(queue))
        continue;
}

/* An event, and what comes of it as long as the device says nothing. */
static void take_all(void)
{
    queue_on_event(queue);
    turn();
}

/* The device confirms what it was given; whether that was anything. */
static bool confirm_all(void)
{
    struct back_ticket ticket;
    bool confirmed = false;
    int32_t status;

    for (; device_confirm(&device, &ticket, &status); confirmed = true)
        CHECK(queue_finish(queue, ticket, status));
    return confirmed;
}

/* An event, and what comes of it until the device has confirmed all. */
static void serve(void)
{
    queue_on_event(queue);
    do
        turn();
    while (confirm_all());
}

static bool all_zero(const uint8_t *octets, size_t length)
{
    for (size_t i = 0; i < length; i++)
        if (octets[i] != 0)
            return false;
    return true;
}

/* No grant word is left when nothing is posted. */
static void check_words(void)
{
    CHECK(all_zero(queue->pages.transmit.word, sizeof queue->pages.transmit.word));
    CHECK(all_zero(queue->pages.receive.word, sizeof queue->pages.receive.word));
}

static void refuse_offer(const struct queue_offer *offer, const char *complaint)
{
    const char *why;

    CHECK(!queue_connect(&xen, &device, offer, &why));
    CHECK(strcmp(why, complaint) == 0);
    CHECK(pretend.mapped == 0 && pretend.bound == 0);
}

static void test_bad_offers(void)
{
    struct queue_offer offer = good_offer;

    offer.transmit_ring = 5;
    refuse_offer(&offer, "the transmit ring's page cannot be mapped");
    offer = good_offer;
    offer.receive_ring = 5;
    refuse_offer(&offer, "the receive ring's page cannot be mapped");
    offer = good_offer;
    offer.event_channel = 5;
    refuse_offer(&offer, "the event channel cannot be bound");
}

static void test_event_without_work(void)
{
    open_queue(true);
    CHECK(!queue_turn(queue) && taken(TOLLMEANDER_EMPTY) == 1 && pretend.unmasked == 0);
    serve();
    CHECK(taken(TOLLMEANDER_EMPTY) == 2 && pretend.unmasked == 1);
    CHECK(!queue_turn(queue) && taken(TOLLMEANDER_EMPTY) == 2);
    close_queue();
}

/* An event is acknowledged when the work is done, and not before. */
static void test_many_packets(void)
{
    unsigned turns = 0;

    open_queue(true);
    post_buffers(BUFFERS);
    for (int i = 0; i < 100; i++)
        post(SHORT, 0, FRAME);
    queue_on_event(queue);
    for (; queue_turn(queue); turns++) {
        CHECK(pretend.unmasked == 0);
        confirm_all();
    }
    CHECK(turns > 5 && pretend.unmasked == 1);
    CHECK(taken(TOLLMEANDER_DONE) == 100 && put(TOLLMEANDER_DONE) == 100);
    CHECK(memcmp(pretend.page[FIRST_BUFFER + 99] + 42, pretend.page[SHORT] + 42, FRAME - 42) == 0);
    CHECK(pretend.page[FIRST_BUFFER + 99][FRAME] == OLD_OCTET);
    close_queue();
}

/* A frame waits for 10 seconds, tried each second; the packet behind it is taken after that. */
static void test_no_buffers(void)
{
    open_queue(true);
    post(SHORT, 0, FRAME);
    post(SHORT, 0, FRAME);
    serve();
    CHECK(queue_waits(queue) && taken(TOLLMEANDER_DONE) == 1);
    for (uint64_t second = 1; second < 10; second++) {
        pretend.seconds++;
        CHECK(!queue_turn(queue) && put(TOLLMEANDER_NO_BUFFERS) == 1 + second);
        CHECK(!queue_turn(queue) && put(TOLLMEANDER_NO_BUFFERS) == 1 + second);
    }
    CHECK(queue->outbox.dropped == 0);
    pretend.seconds++;
    queue_turn(queue);
    CHECK(queue->outbox.dropped == 1 && taken(TOLLMEANDER_DONE) == 2 && queue_waits(queue));
    post_buffers(1);
    serve();
    CHECK(put(TOLLMEANDER_DONE) == 1 && !queue_waits(queue));
    CHECK(queue_last_count(queue)->dropped == 1);
    close_queue();
}

/* One page in slots of several packets, and in several requests, of which not all are used. */
static void test_one_reference(void)
{
    open_queue(true);
    for (int i = 0; i < 4; i++)
        post_buffer(FIRST_BUFFER);
    for (int i = 0; i < 3; i++)
        post(SHORT, 0, FRAME);
    serve();
    CHECK(taken(TOLLMEANDER_DONE) == 3 && put(TOLLMEANDER_DONE) == 3);
    CHECK(memcmp(pretend.page[FIRST_BUFFER] + 42, pretend.page[SHORT] + 42, FRAME - 42) == 0);
    post(SHORT, 0, FRAME);
    serve();
    CHECK(put(TOLLMEANDER_DONE) == 4);
    check_words();
    close_queue();
}

/* Pages that are not granted, or beyond the table, refuse their packet and no other. */
static void test_not_granted(void)
{
    open_queue(true);
    post_buffers(10);
    pretend.revoked[SHORT + 1] = true;
    post(SHORT + 1, 0, FRAME);
    post(PAGES_REFERENCES, 0, FRAME);
    post(UINT32_MAX, 0, FRAME);
    post(SHORT, 0, FRAME);
    serve();
    CHECK(taken(TOLLMEANDER_SPOILED) == 3 && taken(TOLLMEANDER_DONE) == 1);
    CHECK(queue->count.transmit.cause[TOLLMEANDER_CAUSE_GRANT] == 3);
    CHECK(put(TOLLMEANDER_DONE) == 1 && !queue->end);
    close_queue();
}

/* Xen refuses the second of three pieces: no part of that frame is delivered; the next one is. */
static void test_refused_piece(void)
{
    open_queue(true);
    post_buffers(6);
    pretend.revoked[FIRST_BUFFER + 1] = true;
    post_long();
    serve();
    CHECK(put(TOLLMEANDER_SPOILED) == 1 && put(TOLLMEANDER_DONE) == 0);
    for (uint32_t n = 0; n < 3; n++)
        CHECK(pretend.receive.word[ring_slot(RECEIVE_SLOT_WORDS, n) + RECEIVE_STATUS_WORD] ==
              (uint32_t)TOLLMEANDER_REPLY_ERROR << 16);
    post_long();
    serve();
    CHECK(put(TOLLMEANDER_DONE) == 1);
    CHECK(memcmp(pretend.page[FIRST_BUFFER + 4], pretend.page[LONG + 1],
                 TOLLMEANDER_PAGE_SIZE) == 0);
    check_words();
    close_queue();
}

/* A guest without scatter-gather gets no frame of more than a page. */
static void test_no_scatter_gather(void)
{
    open_queue(false);
    post_buffers(10);
    post_long();
    post(SHORT, 0, FRAME);
    serve();
    CHECK(taken(TOLLMEANDER_DONE) == 2 && put(TOLLMEANDER_DONE) == 1);
    CHECK(queue_last_count(queue)->dropped == 1);
    close_queue();
}

/* A ring that is halted ends the queue; the frame that waited is counted. */
static void test_halt(void)
{
    open_queue(true);
    post(SHORT, 0, FRAME);
    serve();
    pretend.receive.word[RING_REQ_PROD] += 1000;
    serve();
    CHECK(put(TOLLMEANDER_OVERFLOW) == 1);
    CHECK(queue->end && strcmp(queue->end, "the guest broke the rules of the ring") == 0);
    CHECK(queue_last_count(queue)->dropped == 1);
    close_queue();
}

/* A frame that is too short is this host's fault: said, and not tried for ever. */
static void test_lent_wrong(void)
{
    open_queue(true);
    memset(outbox_add(&queue->outbox, 5), 0, 5);
    serve();
    CHECK(queue->end && strcmp(queue->end, "this host lent something wrong") == 0);
    serve();
    CHECK(put(TOLLMEANDER_BAD_LENGTH) == 1);
    close_queue();
}

/* The ticket of the packet whose first slot is n. */
static struct back_ticket ticket_of(uint32_t n)
{
    return (struct back_ticket){ queue->transmit.connection, n };
}

static uint32_t replied(void)
{
    return pretend.transmit.word[RING_RSP_PROD];
}

/* Whether the reply to data slot n is its id with a status. */
static bool is_reply(uint32_t n, int32_t status)
{
    uint32_t reply = pretend.transmit.word[ring_slot(TRANSMIT_SLOT_WORDS, n)];

    return reply == (n | (uint32_t)status << 16);
}

/* A queue whose guest has buffers, waits for its first reply, and posts short packets. */
static void open_with_packets(uint32_t count)
{
    open_queue(true);
    post_buffers(BUFFERS);
    pretend.transmit.word[RING_RSP_EVENT] = 1;
    for (uint32_t i = 0; i < count; i++)
        post(SHORT, 0, FRAME);
}

/* A take publishes req_event alone; replies come with confirmations, in the order of taking. */
static void test_confirmed_later(void)
{
    open_with_packets(3);
    take_all();
    CHECK(taken(TOLLMEANDER_DONE) == 3 && put(TOLLMEANDER_DONE) == 3);
    CHECK(replied() == 0 && pretend.transmit.word[RING_REQ_EVENT] == 4);
    CHECK(queue_holds(queue) && queue_waits(queue) && device.count == 3);
    CHECK(all_zero(queue->pages.transmit.word, sizeof queue->pages.transmit.word));
    pretend.notified = 0;
    CHECK(queue_finish(queue, ticket_of(2), TOLLMEANDER_REPLY_ERROR) && replied() == 0);
    queue_turn(queue);
    CHECK(pretend.notified == 0);
    CHECK(queue_finish(queue, ticket_of(0), TOLLMEANDER_REPLY_OKAY) && replied() == 1);
    queue_turn(queue);
    CHECK(pretend.notified == 1);
    CHECK(queue_finish(queue, ticket_of(1), TOLLMEANDER_REPLY_DROPPED) && replied() == 3);
    CHECK(is_reply(0, 0) && is_reply(1, -2) && is_reply(2, -1));
    CHECK(!queue_holds(queue) && !queue_waits(queue));
    CHECK(queue->count.finish.okay == 1 && queue->count.finish.error == 1 &&
          queue->count.finish.dropped == 1 && queue->count.finish.late == 0);
    close_queue();
}

/* Without a free record the queue waits for the device until replies leave, and for no event. */
static void test_no_record(void)
{
    open_with_packets(QUEUE_RECORDS + 8);
    take_all();
    CHECK(taken(TOLLMEANDER_DONE) == QUEUE_RECORDS && taken(TOLLMEANDER_NO_RECORD) == 1);
    CHECK(pretend.transmit.word[RING_REQ_EVENT] == 0 && pretend.unmasked == 1);
    for (uint32_t n = 1; n < QUEUE_RECORDS; n++)
        CHECK(queue_finish(queue, ticket_of(n), TOLLMEANDER_REPLY_OKAY));
    CHECK(!queue_turn(queue) && taken(TOLLMEANDER_NO_RECORD) == 1 && replied() == 0);
    CHECK(queue_finish(queue, ticket_of(0), TOLLMEANDER_REPLY_OKAY));
    CHECK(replied() == QUEUE_RECORDS);
    turn();
    CHECK(taken(TOLLMEANDER_DONE) == QUEUE_RECORDS + 8 && taken(TOLLMEANDER_NO_RECORD) == 1);
    CHECK(taken(TOLLMEANDER_EMPTY) == 1 && replied() == QUEUE_RECORDS);
    close_queue();
}

/* A spoiled packet is replied to at once where nothing is held, else in its turn. */
static void test_spoiled_in_turn(void)
{
    open_with_packets(0);
    post(UINT32_MAX, 0, FRAME);
    take_all();
    CHECK(replied() == 1 && is_reply(0, -1) && pretend.notified == 1);
    post(SHORT, 0, FRAME);
    post(UINT32_MAX, 0, FRAME);
    post(SHORT, 0, FRAME);
    take_all();
    CHECK(taken(TOLLMEANDER_SPOILED) == 2 && taken(TOLLMEANDER_DONE) == 2 && replied() == 1);
    CHECK(!queue_finish(queue, ticket_of(2), TOLLMEANDER_REPLY_OKAY) && replied() == 1);
    CHECK(queue_finish(queue, ticket_of(1), TOLLMEANDER_REPLY_OKAY) && replied() == 3);
    CHECK(is_reply(1, 0) && is_reply(2, -1));
    CHECK(queue_finish(queue, ticket_of(3), TOLLMEANDER_REPLY_OKAY) && replied() == 4);
    close_queue();
}

/* Goes to a second, with the turn that is due in it. */
static void turn_at(int64_t second)
{
    CHECK(queue_waits(queue));
    pretend.seconds = second;
    turn();
}

/* A packet is dropped after 5 to 10 seconds without a word; what is said of it then is late. */
static void test_time_limit(void)
{
    open_with_packets(1);
    take_all();
    turn_at(4);
    post(SHORT, 0, FRAME);
    take_all();
    turn_at(5);
    turn_at(9);
    post(SHORT, 0, FRAME);
    take_all();
    CHECK(replied() == 0 && queue->count.finish.overdue == 0);
    pretend.notified = 0;
    turn_at(10);
    CHECK(replied() == 2 && is_reply(0, -2) && is_reply(1, -2) && pretend.notified == 1);
    CHECK(queue->count.finish.overdue == 2 && queue->count.finish.dropped == 0);
    CHECK(!queue_finish(queue, ticket_of(0), TOLLMEANDER_REPLY_OKAY));
    CHECK(replied() == 2 && is_reply(0, -2) && queue->count.finish.late == 1);
    turn_at(14);
    CHECK(replied() == 2);
    turn_at(15);
    CHECK(replied() == 3 && queue->count.finish.overdue == 3 && !queue_waits(queue));
    close_queue();
}

/* A device that says nothing any more: every packet is dropped in time, and the guest goes on. */
static void test_silent_device(void)
{
    open_with_packets(3 * QUEUE_RECORDS);
    take_all();
    for (int64_t second = 5; second <= 30; second += 5)
        turn_at(second);
    CHECK(taken(TOLLMEANDER_DONE) == 3 * QUEUE_RECORDS && replied() == 3 * QUEUE_RECORDS);
    CHECK(queue->count.finish.overdue == 3 * QUEUE_RECORDS && taken(TOLLMEANDER_NO_RECORD) == 2);
    close_queue();
}

/* A ticket of a connection that is over finishes nothing of the next one, which has its number. */
static void test_late_ticket(void)
{
    struct back_ticket late;

    open_with_packets(1);
    take_all();
    late = ticket_of(0);
    close_queue();
    open_with_packets(1);
    take_all();
    CHECK(!queue_finish(queue, late, TOLLMEANDER_REPLY_OKAY) && replied() == 0);
    CHECK(queue->count.finish.late == 1 && queue_holds(queue));
    CHECK(confirm_all() && replied() == 1 && queue->count.finish.okay == 1);
    close_queue();
}

/* A device that has too many packets gets no more: they are dropped, and not answered. */
static void test_device_full(void)
{
    open_with_packets(1);
    device.count = DEVICE_TICKETS;
    take_all();
    CHECK(taken(TOLLMEANDER_DONE) == 1 && put(TOLLMEANDER_DONE) == 0);
    CHECK(replied() == 1 && is_reply(0, -2) && pretend.notified == 1);
    CHECK(queue->count.finish.dropped == 1 && device.count == DEVICE_TICKETS);
    close_queue();
}

/* What a halted ring holds can be finished, until the queue is disconnected. */
static void test_halted_holds(void)
{
    open_with_packets(1);
    take_all();
    pretend.transmit.word[RING_REQ_PROD] += 1000;
    take_all();
    CHECK(taken(TOLLMEANDER_OVERFLOW) == 1 && queue->end && replied() == 0);
    CHECK(confirm_all() && replied() == 1 && is_reply(0, 0));
    close_queue();
}

/* Two vifs on the same ring pages: they take the same packets, and tickets have the same slots. */
static void connect_two(struct vifs *vifs, struct vif *both)
{
    const char *why;

    memset(&pretend, 0, sizeof pretend);
    memset(vifs, 0, sizeof *vifs);
    write_frame(SHORT, FRAME);
    for (uint32_t i = 0; i < 2; i++) {
        memset(&both[i], 0, sizeof both[i]);
        both[i].xen = vifs->xen = &xen;
        both[i].table = &vifs->table;
        both[i].queue = queue_connect(&xen, &vifs->device, &good_offer, &why);
        vifs->vif[3 * i] = &both[i];
    }
}

static const struct finish_counters *said_of(const struct vif *vif)
{
    return &vif->queue->count.finish;
}

/* What the device says goes to the connection that it is of, and nowhere when that is over. */
static void test_two_vifs(void)
{
    static struct vifs vifs;
    struct back_ticket late;
    struct vif vif[2];
    const char *why;

    connect_two(&vifs, vif);
    post_buffers(BUFFERS);
    post(SHORT, 0, FRAME);
    while (vifs_turn(&vifs))
        continue;
    CHECK(said_of(&vif[0])->okay == 1 && said_of(&vif[1])->okay == 1 && !vifs_wait(&vifs));
    post(SHORT, 0, FRAME);
    for (uint32_t i = 0; i < 2; i++) {
        queue_on_event(vif[i].queue);
        queue_turn(vif[i].queue);
    }
    CHECK(vifs.device.count == 2 && vifs_wait(&vifs));
    late = vifs.device.ticket[0];
    queue_disconnect(vif[0].queue);
    vif[0].queue = NULL;
    CHECK(vifs_turn(&vifs) && vifs.device.count == 0 && said_of(&vif[1])->okay == 2);
    queue_on_event(vif[1].queue);
    vif[0].queue = queue_connect(&xen, &vifs.device, &good_offer, &why);
    device_give(&vifs.device, late);
    while (vifs_turn(&vifs))
        continue;
    CHECK(said_of(&vif[0])->okay == 2 && said_of(&vif[1])->okay == 2);
    CHECK(said_of(&vif[0])->late == 0 && said_of(&vif[1])->late == 0);
    for (uint32_t i = 0; i < 2; i++)
        queue_disconnect(vif[i].queue);
    CHECK(pretend.mapped == 0 && pretend.bound == 0 && pretend.wrong == 0);
}

int main(void)
{
    test_bad_offers();
    test_event_without_work();
    test_many_packets();
    test_no_buffers();
    test_one_reference();
    test_not_granted();
    test_refused_piece();
    test_no_scatter_gather();
    test_halt();
    test_lent_wrong();
    test_confirmed_later();
    test_no_record();
    test_spoiled_in_turn();
    test_time_limit();
    test_silent_device();
    test_late_ticket();
    test_device_full();
    test_halted_holds();
    test_two_vifs();
    return check_result("queue_test");
}
