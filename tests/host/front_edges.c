/*
 * front_ring.c at its edges, on one thread: what it writes to the backend's page and what it leaves
 * alone, the wrap, a full ring, both ends of notify; and a backend that writes what it must not.
 */
#include <stdbool.h>
#include <stdint.h>
#include <string.h>

#include "check.h"
#include "front_ring.h"
#include "scene.h"
#include "slot_bits.h"

enum {
    READ_GREF = FREE_GREF,      /* page 1, to be read only */
    FRAME_SIZE = 60,
    PAGE = TOLLMEANDER_PAGE_SIZE
};

static struct ring_page before;
static struct front_ring ring, ring_before;
static struct tollmeander_report report;
static struct front_packet packet;
static uint8_t window_before[sizeof window];
static uint8_t frame[TOLLMEANDER_FRAME_MAX + 1];
static const uint32_t references[PAGES] = { GREF, GREF + 1, GREF + 2, GREF + 3 };
static const struct front_gso no_gso, some_gso = { 1, 1460, 2 };

/* A fresh ring must not mind what was on its page. */
static void open_ring(uint32_t counter)
{
    litter_page();
    front_ring_open(&ring, &page, counter);
    open_pages();
    grant_table_set(grants, READ_GREF, 1, TOLLMEANDER_GRANTED);
    for (uint32_t i = 0; i < sizeof frame; i++)
        frame[i] = (uint8_t)(i * 7 + i / PAGE);
}

/* All that a call may write, as it is now. */
static void remember(void)
{
    memcpy(&before, &page, sizeof page);
    memcpy(&ring_before, &ring, sizeof ring);
    memcpy(window_before, window, sizeof window);
}

static uint32_t post_by(const uint32_t *list, size_t count, size_t length, struct front_gso gso)
{
    remember();
    memset(&report, 0x5A, sizeof report);
    return front_ring_post(&ring, &granted, list, count, frame, length, gso, &report);
}

static uint32_t post(size_t length, struct front_gso gso)
{
    return post_by(references, PAGES, length, gso);
}

static bool page_is(const struct ring_page *expected)
{
    return memcmp(&page, expected, sizeof page) == 0;
}

/* Whether the last call changed nothing at all. */
static bool unchanged(void)
{
    return page_is(&before) && memcmp(&ring, &ring_before, sizeof ring) == 0 &&
           memcmp(window, window_before, sizeof window) == 0;
}

/* Writes words of a slot into an expected page. */
static void expect_slot(struct ring_page *expected, uint32_t n, uint32_t a, uint32_t b, uint32_t c)
{
    uint32_t first = ring_slot(TRANSMIT_SLOT_WORDS, n);

    expected->word[first] = a;
    expected->word[first + 1] = b;
    expected->word[first + 2] = c;
}

/* The backend: a reply at slot n, and rsp_prod. */
static void reply(uint32_t n, uint32_t id, int status)
{
    set_word(ring_slot(TRANSMIT_SLOT_WORDS, n), (id & 0xFFFF) | (uint32_t)status << 16);
}

static void publish(uint32_t rsp_prod)
{
    set_word(RING_RSP_PROD, rsp_prod);
}

/* Replies to n as a data slot in the way that it must be. */
static void reply_okay(uint32_t n)
{
    reply(n, n, TOLLMEANDER_REPLY_OKAY);
    publish(n + 1);
}

static enum front_collected collect(void)
{
    remember();
    memset(&packet, 0x5A, sizeof packet);
    return front_ring_collect(&ring, &packet);
}

static bool told(uint32_t first, uint32_t slots, uint32_t pages, int32_t status)
{
    return packet.first == first && packet.slots == slots && packet.pages == pages &&
           packet.status == status;
}

static bool reported(uint32_t answer, uint32_t slots, uint32_t notify)
{
    const struct tollmeander_report expected = {
        .answer = answer, .slots = slots, .notify = notify
    };

    return memcmp(&report, &expected, sizeof report) == 0;
}

/* A fresh page is clear but for the four counters, wherever they begin; a packet follows. */
static void opens_at_any_counter(void)
{
    static const uint32_t counters[] = { 0, 1, 255, 256, 65535, 0x80000000, UINT32_MAX };

    for (uint32_t i = 0; i < sizeof counters / sizeof counters[0]; i++) {
        uint32_t n = counters[i];
        struct ring_page expected = { .word = { n, n + 1, n, n + 1 } };

        open_ring(n);
        CHECK(page_is(&expected));
        CHECK(collect() == FRONT_NONE);
        CHECK(unchanged());
        CHECK(post(FRAME_SIZE, no_gso) == TOLLMEANDER_DONE);
        CHECK(reported(TOLLMEANDER_DONE, 1, 1));
        expect_slot(&expected, n, GREF, 0, (n & 0xFFFF) | (uint32_t)FRAME_SIZE << 16);
        expected.word[RING_REQ_PROD] = n + 1;
        CHECK(page_is(&expected));
        CHECK(memcmp(window, frame, FRAME_SIZE) == 0 && window[FRAME_SIZE] == OLD_OCTET);
    }
}

/* Of the backend's page only the posted slots and req_prod are written. */
static void writes_little(void)
{
    struct ring_page expected;

    open_ring(254);
    litter_page();
    memcpy(&expected, &page, sizeof page);
    CHECK(post(2 * PAGE + 1, some_gso) == TOLLMEANDER_DONE);
    CHECK(reported(TOLLMEANDER_DONE, 4, 0));
    expect_slot(&expected, 254, GREF, (MORE_DATA | EXTRA_FOLLOWS) << 16, 254 | 8193u << 16);
    expect_slot(&expected, 255, EXTRA_TYPE_GSO | 1460u << 16, 2, 0);
    expect_slot(&expected, 256, GREF + 1, MORE_DATA << 16, 256 | 4096u << 16);
    expect_slot(&expected, 257, GREF + 2, 0, 257 | 1u << 16);
    expected.word[RING_REQ_PROD] = 258;
    CHECK(page_is(&expected));
    CHECK(memcmp(window, frame, 2 * PAGE + 1) == 0 && window[2 * PAGE + 1] == OLD_OCTET);
}

/* Packets of three slots across the wrap of the counter. */
static void goes_through_the_wrap(void)
{
    uint32_t n = 4294967290u;

    open_ring(n);
    for (uint32_t i = 0; i < 4; i++, n += 3) {
        CHECK(post(PAGE + 1, some_gso) == TOLLMEANDER_DONE);
        CHECK(word(RING_REQ_PROD) == n + 3);
        CHECK(word(ring_slot(TRANSMIT_SLOT_WORDS, n + 2) + 2) == (((n + 2) & 0xFFFF) | 1u << 16));
        reply(n, n, TOLLMEANDER_REPLY_OKAY);
        reply(n + 1, 0, TOLLMEANDER_REPLY_NULL);
        reply(n + 2, n + 2, TOLLMEANDER_REPLY_OKAY);
        publish(n + 3);
        CHECK(collect() == FRONT_PACKET);
        CHECK(told(n, 3, 2, TOLLMEANDER_REPLY_OKAY));
        CHECK(collect() == FRONT_NONE);
    }
    CHECK(n == 6);
}

/* A full ring takes nothing; a slot is free when its reply was read, not when it has come. */
static void full_until_replies_are_read(void)
{
    open_ring(100);
    for (uint32_t n = 100; n < 356; n++)
        CHECK(post(FRAME_SIZE, no_gso) == TOLLMEANDER_DONE);
    CHECK(post(FRAME_SIZE, no_gso) == TOLLMEANDER_NO_SLOTS && unchanged());
    for (uint32_t n = 100; n < 103; n++)
        reply_okay(n);
    CHECK(post(FRAME_SIZE, no_gso) == TOLLMEANDER_NO_SLOTS && unchanged());
    for (uint32_t n = 100; n < 103; n++) {
        CHECK(post(PAGE + 1, some_gso) == TOLLMEANDER_NO_SLOTS && unchanged());
        CHECK(collect() == FRONT_PACKET);
        CHECK(told(n, 1, 1, TOLLMEANDER_REPLY_OKAY));
    }
    CHECK(post(PAGE + 1, some_gso) == TOLLMEANDER_DONE);
    CHECK(word(RING_REQ_PROD) == 359);
    CHECK(post(FRAME_SIZE, no_gso) == TOLLMEANDER_NO_SLOTS && unchanged());
}

/* The notification goes by the backend's req_event of now: 251 to 253 for slots 250 to 252. */
static void notifies_by_the_page(void)
{
    for (uint32_t req_event = 249; req_event < 256; req_event++) {
        open_ring(250);
        set_word(RING_REQ_EVENT, req_event);
        CHECK(post(PAGE + 1, some_gso) == TOLLMEANDER_DONE);
        CHECK(reported(TOLLMEANDER_DONE, 3, req_event >= 251 && req_event <= 253));
    }
}

/* Every refusal leaves page, window and ring as they were, and the next packet goes there. */
static void refusals_change_nothing(void)
{
    static const struct front_gso no_size = { 1, 0, 1 }, no_type = { 1, 1, 0 };
    static const struct front_gso type_3 = { 1, 1, 3 };
    static const uint32_t unfit[] = { GREF, READ_GREF }, twice[] = { GREF + 1, GREF + 1 };
    struct front_gso not_given = { 0, 0, 9 };

    open_ring(7);
    litter_page();
    CHECK(post(TOLLMEANDER_FRAME_MIN - 1, no_size) == TOLLMEANDER_BAD_LENGTH && unchanged());
    CHECK(post(TOLLMEANDER_FRAME_MAX + 1, no_gso) == TOLLMEANDER_BAD_LENGTH && unchanged());
    CHECK(reported(TOLLMEANDER_BAD_LENGTH, 0, 0));
    CHECK(post_by(unfit, 0, FRAME_SIZE, no_size) == TOLLMEANDER_BAD_GSO && unchanged());
    CHECK(post(FRAME_SIZE, no_type) == TOLLMEANDER_BAD_GSO && unchanged());
    CHECK(post(FRAME_SIZE, type_3) == TOLLMEANDER_BAD_GSO && unchanged());
    CHECK(reported(TOLLMEANDER_BAD_GSO, 0, 0));
    CHECK(post_by(references, 1, PAGE + 1, no_gso) == TOLLMEANDER_BAD_PAGES && unchanged());
    CHECK(post_by(unfit, 2, PAGE + 1, no_gso) == TOLLMEANDER_BAD_PAGES && unchanged());
    CHECK(post_by(twice, 2, PAGE + 1, no_gso) == TOLLMEANDER_BAD_PAGES && unchanged());
    CHECK(reported(TOLLMEANDER_BAD_PAGES, 0, 0));
    CHECK(post_by(unfit, 2, PAGE, not_given) == TOLLMEANDER_DONE);
    CHECK(word(RING_REQ_PROD) == 8);
    for (uint32_t n = 8; n < 7 + 255; n++)
        CHECK(post(FRAME_SIZE, no_gso) == TOLLMEANDER_DONE);
    CHECK(post(FRAME_SIZE, some_gso) == TOLLMEANDER_NO_SLOTS && unchanged());
    CHECK(reported(TOLLMEANDER_NO_SLOTS, 0, 0));
    CHECK(post_by(unfit, 2, PAGE + 1, no_gso) == TOLLMEANDER_BAD_PAGES && unchanged());
    CHECK(post(FRAME_SIZE, no_gso) == TOLLMEANDER_DONE);
}

/* The driver's req_prod is its own; what the backend writes there, or over slots, is not read. */
static void posts_by_its_own_counter(void)
{
    open_ring(40);
    CHECK(post(FRAME_SIZE, no_gso) == TOLLMEANDER_DONE);
    litter_page();
    publish(40);
    CHECK(post(FRAME_SIZE, no_gso) == TOLLMEANDER_DONE);
    CHECK(word(RING_REQ_PROD) == 42);
    CHECK(word(ring_slot(TRANSMIT_SLOT_WORDS, 41)) == GREF);
    reply_okay(40);
    reply_okay(41);
    CHECK(collect() == FRONT_PACKET && told(40, 1, 1, TOLLMEANDER_REPLY_OKAY));
    CHECK(collect() == FRONT_PACKET && told(41, 1, 1, TOLLMEANDER_REPLY_OKAY));
}

/* A packet is told when its last reply has come, with its status; the page is not written. */
static void tells_packets(void)
{
    static const int statuses[] = {
        TOLLMEANDER_REPLY_OKAY, TOLLMEANDER_REPLY_ERROR, TOLLMEANDER_REPLY_DROPPED
    };
    uint32_t n = 65534;

    open_ring(n);
    for (uint32_t i = 0; i < 3; i++, n += 3) {
        CHECK(post(PAGE + 1, some_gso) == TOLLMEANDER_DONE);
        reply(n, n, statuses[i]);
        reply(n + 1, 0, TOLLMEANDER_REPLY_NULL);
        reply(n + 2, n + 2, statuses[i]);
        for (uint32_t come = 0; come < 3; come++) {
            publish(n + come);
            CHECK(collect() == FRONT_NONE && unchanged());
        }
        publish(n + 3);
        CHECK(collect() == FRONT_PACKET && page_is(&before));
        CHECK(told(n, 3, 2, statuses[i]));
    }
}

/* Different statuses within a packet: the first that is not okay is told. */
static void tells_the_first_failure(int first, int second, int expected)
{
    open_ring(9);
    CHECK(post(PAGE + 1, no_gso) == TOLLMEANDER_DONE);
    reply(9, 9, first);
    reply(10, 10, second);
    publish(11);
    CHECK(collect() == FRONT_PACKET);
    CHECK(told(9, 2, 2, expected));
}

/* A reply that is rewritten after it was read changes nothing, nor does a slot not posted. */
static void reads_replies_once(void)
{
    open_ring(20);
    CHECK(post(FRAME_SIZE, no_gso) == TOLLMEANDER_DONE);
    CHECK(post(FRAME_SIZE, no_gso) == TOLLMEANDER_DONE);
    reply_okay(20);
    CHECK(collect() == FRONT_PACKET);
    reply(20, 999, 77);
    reply(22, 999, 77);
    CHECK(collect() == FRONT_NONE && unchanged());
    reply_okay(21);
    CHECK(collect() == FRONT_PACKET && told(21, 1, 1, TOLLMEANDER_REPLY_OKAY));
    CHECK(collect() == FRONT_NONE && unchanged());
    CHECK(ring.fault == FRONT_SOUND);
}

/* A broken ring stays so when the backend mends its page, and the page is let alone. */
static void stays_broken(enum front_fault fault, uint32_t refused)
{
    struct front_packet unwritten;

    memset(&unwritten, 0x5A, sizeof unwritten);
    CHECK(collect() == FRONT_BROKEN && page_is(&before));
    CHECK(memcmp(&packet, &unwritten, sizeof packet) == 0);
    CHECK(ring.fault == fault && ring.replies_read == refused);
    for (uint32_t n = 30; n != ring.posted; n++)
        reply(n, n, TOLLMEANDER_REPLY_OKAY);
    reply(32, 0, TOLLMEANDER_REPLY_NULL);
    publish(ring.posted);
    CHECK(collect() == FRONT_BROKEN && unchanged());
    CHECK(ring.fault == fault);
    CHECK(post(FRAME_SIZE, no_gso) == TOLLMEANDER_HALTED && unchanged());
    CHECK(reported(TOLLMEANDER_HALTED, 0, 0));
    CHECK(!front_ring_await(&ring, 1) && unchanged());
}

/* A packet of one slot was told; one of a data slot, an extra and a data slot is replied to. */
static void set_up_replies(void)
{
    open_ring(30);
    CHECK(post(FRAME_SIZE, no_gso) == TOLLMEANDER_DONE);
    reply_okay(30);
    CHECK(collect() == FRONT_PACKET);
    CHECK(post(PAGE + 1, some_gso) == TOLLMEANDER_DONE);
    reply(31, 31, TOLLMEANDER_REPLY_OKAY);
    reply(32, 0, TOLLMEANDER_REPLY_NULL);
    reply(33, 33, TOLLMEANDER_REPLY_OKAY);
}

/* One of the three replies is another. */
static void refuses_reply(uint32_t n, uint32_t id, int status, enum front_fault fault)
{
    set_up_replies();
    reply(n, id, status);
    publish(34);
    stays_broken(fault, n);
}

/* All replies stand, but rsp_prod covers slots that are not in flight. */
static void refuses_rsp_prod(uint32_t rsp_prod)
{
    set_up_replies();
    publish(rsp_prod);
    CHECK(!front_ring_await(&ring, 1));
    stays_broken(FRONT_TOO_MANY_REPLIES, 31);
}

static void refuses_garbage(void)
{
    static const int bad[] = { TOLLMEANDER_REPLY_NULL, 2, -3, INT16_MAX, INT16_MIN };
    static const int not_null[] = { TOLLMEANDER_REPLY_OKAY, TOLLMEANDER_REPLY_ERROR, -2, 2, 257 };

    for (uint32_t i = 0; i < 5; i++) {
        refuses_reply(31, 31, bad[i], FRONT_WRONG_STATUS);
        refuses_reply(33, 33, bad[i], FRONT_WRONG_STATUS);
        refuses_reply(32, 0, not_null[i], FRONT_WRONG_STATUS);
    }
    refuses_reply(31, 30, TOLLMEANDER_REPLY_OKAY, FRONT_WRONG_ID);
    refuses_reply(31, 0, TOLLMEANDER_REPLY_NULL, FRONT_WRONG_ID);
    refuses_reply(32, 32, TOLLMEANDER_REPLY_NULL, FRONT_WRONG_ID);
    refuses_reply(32, 1, TOLLMEANDER_REPLY_NULL, FRONT_WRONG_ID);
    refuses_reply(33, 31, TOLLMEANDER_REPLY_OKAY, FRONT_WRONG_ID);
    refuses_reply(33, 33 + 256, TOLLMEANDER_REPLY_OKAY, FRONT_WRONG_ID);
    refuses_rsp_prod(35);
    refuses_rsp_prod(30);
    refuses_rsp_prod(31 + 256);
    refuses_rsp_prod(UINT32_MAX);
}

/* A reply where nothing is in flight is one too many. */
static void refuses_replies_to_nothing(void)
{
    open_ring(30);
    publish(31);
    stays_broken(FRONT_TOO_MANY_REPLIES, 30);
}

/* Asks for the event of some packets: rsp_event is written and nothing else. */
static void check_await(uint32_t packets, uint32_t rsp_event)
{
    struct ring_page expected;

    memcpy(&expected, &page, sizeof page);
    expected.word[RING_RSP_EVENT] = rsp_event;
    CHECK(front_ring_await(&ring, packets));
    CHECK(page_is(&expected));
}

/* Packets of one, three and two slots are awaited by their last replies. */
static void awaits_whole_packets(void)
{
    open_ring(UINT32_MAX);
    check_await(1, 0);
    CHECK(post(FRAME_SIZE, no_gso) == TOLLMEANDER_DONE);
    CHECK(post(PAGE + 1, some_gso) == TOLLMEANDER_DONE);
    CHECK(post(FRAME_SIZE, some_gso) == TOLLMEANDER_DONE);
    check_await(0, 0);
    check_await(1, 0);
    check_await(2, 3);
    check_await(3, 5);
    check_await(UINT32_MAX, 5);
    publish(2);
    check_await(2, 3);
    CHECK(!front_ring_await(&ring, 1));
    CHECK(word(RING_RSP_EVENT) == 0);
    publish(3);
    CHECK(!front_ring_await(&ring, 2));
    check_await(3, 5);
}

int main(void)
{
    opens_at_any_counter();
    writes_little();
    goes_through_the_wrap();
    full_until_replies_are_read();
    notifies_by_the_page();
    refusals_change_nothing();
    posts_by_its_own_counter();
    tells_packets();
    tells_the_first_failure(TOLLMEANDER_REPLY_OKAY, TOLLMEANDER_REPLY_ERROR,
                            TOLLMEANDER_REPLY_ERROR);
    tells_the_first_failure(TOLLMEANDER_REPLY_DROPPED, TOLLMEANDER_REPLY_ERROR,
                            TOLLMEANDER_REPLY_DROPPED);
    tells_the_first_failure(TOLLMEANDER_REPLY_ERROR, TOLLMEANDER_REPLY_OKAY,
                            TOLLMEANDER_REPLY_ERROR);
    reads_replies_once();
    refuses_garbage();
    refuses_replies_to_nothing();
    awaits_whole_packets();
    return check_result("front edges");
}
