#include "scene.h"

#include <stdbool.h>
#include <string.h>

#include "grant_table.h"
#include "octets.h"
#include "slot_bits.h"

enum {
    /* The counter wraps, and the slots go on at the ring's beginning, halfway through. */
    FIRST_COUNTER = -128,
    /* Calls on a ring that they take nothing off. */
    FRUITLESS_CALLS = 1024,
    /* Calls on a ring whose records are lent anew before each. */
    LEAVE_CALLS = 64,

    GRANT_READ_WRITE = TOLLMEANDER_GRANTED | TOLLMEANDER_GRANT_WRITABLE,
    UNGRANTED = SCENE_PAGES,

    /* Every octet of a page that is posted on, so that one left unwritten shows. */
    OLD_OCTET = 0xa5,

    /* From slot to slot parts begin at another cache line, from place to place frames. */
    OFFSET_STEP = 64,
    FRAME_STEP = 5 * 64
};

static uint32_t slots_of(const struct row *row)
{
    return row->data_slots + row->extras;
}

/* Whether the calls of a row take slots off the ring, or post some. */
static bool is_fruitful(const struct row *row)
{
    return row->answer == TOLLMEANDER_DONE || row->answer == TOLLMEANDER_SPOILED;
}

/* The bytes of data slot k: equal shares, and what is left over for the first. */
static uint32_t share(const struct row *row, uint32_t k)
{
    uint32_t later = (row->total + row->data_slots - 1) / row->data_slots;

    return k == 0 ? row->total - later * (row->data_slots - 1) : later;
}

/* The offset of a part: spread over the page as far as there is room. */
static uint32_t offset_of(const struct row *row, uint32_t n, uint32_t part)
{
    uint32_t room = TOLLMEANDER_PAGE_SIZE - row->offset - part;

    return row->offset + n % (room / OFFSET_STEP + 1) * OFFSET_STEP;
}

static uint8_t *slot_at(struct scene *scene, uint32_t n, uint32_t size)
{
    return scene->filled + TOLLMEANDER_RING_FIRST_SLOT + n % TOLLMEANDER_RING_SLOTS * size;
}

static void add_copy(struct scene *scene, uint32_t to, uint32_t from, uint32_t length)
{
    if (scene->row->answer == TOLLMEANDER_DONE)
        scene->copy[scene->copies++] = (struct copy){ to, from, length };
}

static void post_extra(struct scene *scene, uint32_t n)
{
    uint8_t *slot = slot_at(scene, n, TOLLMEANDER_TRANSMIT_SLOT_SIZE);

    slot[0] = EXTRA_TYPE_GSO;
    put16(slot + 2, SCENE_GSO_SIZE);
    slot[4] = SCENE_GSO_TYPE;
}

/* Posts data slot k of a packet, with counter n; its part goes to a place in the frame. */
static void post_data(struct scene *scene, uint32_t n, uint32_t k, uint32_t place)
{
    const struct row *row = scene->row;
    uint8_t *slot = slot_at(scene, n, TOLLMEANDER_TRANSMIT_SLOT_SIZE);
    uint32_t part = share(row, k);
    uint32_t offset = offset_of(row, n, part);
    uint32_t page = n % SCENE_PAGES;
    bool is_last = k + 1 == row->data_slots;
    uint32_t flags = is_last ? 0 : MORE_DATA;

    if (k == 0)
        flags |= CHECKSUM_BLANK;
    if (k == 0 && row->extras > 0)
        flags |= EXTRA_FOLLOWS;
    put32(slot, row->answer == TOLLMEANDER_SPOILED && is_last ? UNGRANTED : page);
    put16(slot + 4, offset);
    put16(slot + 6, flags);
    put16(slot + 8, n);
    put16(slot + 10, k == 0 ? row->total : part);
    /* What is held before the first call is not copied by any. */
    if (n - scene->counter >= row->held)
        add_copy(scene, place, page * TOLLMEANDER_PAGE_SIZE + offset, part);
}

static void post_packet(struct scene *scene, uint32_t n)
{
    const struct row *row = scene->row;
    uint32_t place = 0;

    for (uint32_t k = 0; k < row->data_slots; k++) {
        post_data(scene, n++, k, place);
        place += share(row, k);
        for (uint32_t i = 0; k == 0 && i < row->extras; i++)
            post_extra(scene, n++);
    }
}

/* Adds the copies of a frame that goes to as many pages as it takes, from that of slot n on. */
static void add_pieces(struct scene *scene, uint32_t n)
{
    uint32_t total = scene->row->total;
    uint32_t piece;

    for (uint32_t place = 0; place < total; place += piece) {
        uint32_t left = total - place;

        piece = left < TOLLMEANDER_PAGE_SIZE ? left : TOLLMEANDER_PAGE_SIZE;
        add_copy(scene, n++ % SCENE_PAGES * TOLLMEANDER_PAGE_SIZE, place, piece);
    }
}

static void post_requests(struct scene *scene, uint32_t n)
{
    add_pieces(scene, n);
    for (uint32_t k = 0; k < scene->row->data_slots; k++, n++) {
        uint8_t *slot = slot_at(scene, n, TOLLMEANDER_RECEIVE_SLOT_SIZE);

        put16(slot, n);
        put32(slot + 4, n % SCENE_PAGES);
    }
}

/* Writes the references for posts. */
static void refer(struct scene *scene)
{
    const struct row *row = scene->row;
    uint32_t *last = scene->references + scene->counter % SCENE_PAGES + row->data_slots - 1;

    for (uint32_t i = 0; i < SCENE_REFERENCES; i++)
        scene->references[i] = i % SCENE_PAGES;
    if (row->answer == TOLLMEANDER_BAD_PAGES)
        *last = *(last - 1);
}

/* Posts what a call takes or delivers to, or adds the copies of one that posts. */
static void post_run(struct scene *scene, uint32_t n)
{
    if (scene->row->way == TRANSMIT)
        post_packet(scene, n);
    else if (scene->row->way == RECEIVE)
        post_requests(scene, n);
    else
        add_pieces(scene, n);
}

/* Posts the packets that are held before the first call, and holds them. */
static void hold_all(struct scene *scene)
{
    const struct row *row = scene->row;

    memset(scene->before, 0, sizeof scene->before);
    for (uint32_t i = 0; i < row->held; i++) {
        uint32_t n = scene->counter + i;

        post_packet(scene, n);
        scene->before[i] = (struct tollmeander_held){ n, 1, 0, TOLLMEANDER_REPLY_OKAY,
                                                      row->way == LEAVE && i > 0 };
    }
}

/* The packets or frames that calls on a ring have to do with. */
static uint32_t runs_of(const struct scene *scene)
{
    if (scene->row->way == LEAVE)
        return 0;
    return is_fruitful(scene->row) ? scene->calls : 1;
}

/* Fills a ring page with packets or requests, or leaves it to be posted on. */
static void post_all(struct scene *scene)
{
    const struct row *row = scene->row;
    uint32_t first = scene->counter + row->held;
    uint32_t runs = runs_of(scene);

    memset(scene->filled, row->way == POST ? OLD_OCTET : 0, sizeof scene->filled);
    hold_all(scene);
    for (uint32_t i = 0; i < runs; i++)
        post_run(scene, first + i * slots_of(row));
    put32(scene->filled + TOLLMEANDER_RING_REQ_PROD, scene->counter + scene->posted);
    put32(scene->filled + TOLLMEANDER_RING_REQ_EVENT, first + runs * slots_of(row));
    put32(scene->filled + TOLLMEANDER_RING_RSP_PROD, scene->counter);
    put32(scene->filled + TOLLMEANDER_RING_RSP_EVENT, scene->counter + scene->posted);
}

/* The slots on a ring before the first call. */
static uint32_t posted_at_first(const struct scene *scene)
{
    const struct row *row = scene->row;
    uint32_t slots = is_fruitful(row) ? runs_of(scene) * slots_of(row) : slots_of(row) - 1;

    if (row->way != POST)
        return row->held + slots;
    return row->answer == TOLLMEANDER_NO_SLOTS ? TOLLMEANDER_RING_SLOTS - slots : 0;
}

/* How many calls are made on a ring. */
static uint32_t calls_of_row(const struct row *row)
{
    if (row->way == LEAVE)
        return LEAVE_CALLS;
    if (!is_fruitful(row))
        return FRUITLESS_CALLS;
    return (TOLLMEANDER_RING_SLOTS - row->held) / slots_of(row);
}

/* A grant to each page of the window, then a word that grants nothing. */
static void grant_all(struct scene *scene)
{
    for (uint32_t i = 0; i < SCENE_PAGES; i++)
        grant_table_set(scene->grants, i, i, GRANT_READ_WRITE);
    grant_table_clear(scene->grants, UNGRANTED);
}

void scene_make(struct scene *scene, const struct row *row, unsigned place)
{
    scene->row = row;
    scene->counter = (uint32_t)FIRST_COUNTER;
    scene->calls = calls_of_row(row);
    scene->posted = posted_at_first(scene);
    scene->frame = scene->frame_room + place * FRAME_STEP % TOLLMEANDER_PAGE_SIZE;
    scene->frame_len = row->way == TRANSMIT ? SCENE_FRAME : row->total;
    scene->copies = 0;
    grant_all(scene);
    refer(scene);
    post_all(scene);
    scene_fill(scene);
}

void scene_fill(struct scene *scene)
{
    for (int i = 0; i < SCENE_RINGS; i++) {
        memcpy(scene->rings[i], scene->filled, sizeof scene->filled);
        memcpy(scene->held[i], scene->before, sizeof scene->before);
    }
}

void scene_copy(struct scene *scene)
{
    bool is_transmit = scene->row->way == TRANSMIT;
    uint8_t *to = is_transmit ? scene->frame : scene->window;
    const uint8_t *from = is_transmit ? scene->window : scene->frame;

    for (uint32_t i = 0; i < scene->copies; i++)
        memcpy(to + scene->copy[i].to, from + scene->copy[i].from, scene->copy[i].length);
}

/* Random bytes by a linear congruence. */
static uint32_t write_bytes(uint8_t *to, size_t length, uint32_t random)
{
    for (size_t i = 0; i < length; i++) {
        random = random * 1664525 + 1013904223;
        to[i] = (uint8_t)(random >> 24);
    }
    return random;
}

void scene_write(struct scene *scene)
{
    uint32_t random = write_bytes(scene->window, sizeof scene->window, 1);

    write_bytes(scene->frame, SCENE_FRAME, random);
}
