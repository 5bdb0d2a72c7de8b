/*
 * The packets that a simulated guest sends, each made from a seed and its number. Sender and
 * checker make them independently of each other.
 */
#ifndef TRAFFIC_H
#define TRAFFIC_H

#include <stdbool.h>
#include <stdint.h>

#include "tollmeander.h"

enum { POOL_BYTES = 131072 };

/* Random bytes that frames are cut from. */
struct frame_pool {
    uint8_t bytes[POOL_BYTES];
};

/* What is wrong with some packets of a guest. */
enum fault {
    FAULT_NONE,
    FAULT_CRASH,        /* the guest stops for ever with two slots of three posted */
    FAULT_MISSHAPEN,    /* a later data slot says that an extra follows */
    FAULT_UNGRANTED     /* the last data slot names a page that is not granted */
};

/* A packet with a fault has three data slots and no extras; the fault is in the last. */
enum { FAULTY_SLOTS = 3, FAULTY_PLACE = FAULTY_SLOTS - 1 };

struct traffic {
    const struct frame_pool *pool;
    uint64_t seed;
    uint64_t packets;       /* numbered from 0 */
    bool plain;             /* laid out as tollmeander_transmit_post does; then no fault */
    enum fault fault;
    uint64_t fault_first;   /* the first packet with the fault */
    uint64_t fault_step;    /* from one such packet to the next; 0 if there is one only */
};

struct packet {
    uint64_t number;
    enum fault fault;
    uint32_t length;        /* of the frame */
    uint32_t flags;         /* of the first slot: CHECKSUM_BLANK, DATA_VALIDATED */
    uint32_t extras;
    uint32_t gso_size;
    uint32_t gso_type;
    uint32_t data_slots;
    uint32_t part[TOLLMEANDER_PACKET_DATA_MAX];
    uint32_t offset[TOLLMEANDER_PACKET_DATA_MAX];
};

void frame_pool_fill(struct frame_pool *pool, uint64_t seed);

/* Packet number of a guest's traffic. */
void traffic_packet(const struct traffic *traffic, uint64_t number, struct packet *packet);

/* The first packet from number on that has no fault. */
uint64_t traffic_next_good(const struct traffic *traffic, uint64_t number);

/* Writes the bytes of a frame. */
void traffic_frame(const struct traffic *traffic, uint64_t number, uint32_t length, uint8_t *frame);

/* Whether a frame has exactly these bytes. */
bool traffic_is_frame(const struct traffic *traffic, uint64_t number, uint32_t length,
                      const uint8_t *frame);

#endif
