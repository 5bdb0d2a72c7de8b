/*
 * A very small network: the host 10.0.0.2. Answers ARP and ping, and echoes UDP and TCP on any
 * port; no fragments. It relies on the vif to lose nothing: a TCP segment is never sent again.
 *
 * It stands where a device would, and is done with a frame at once (see device.h). A device
 * finishes the checksum of a frame whose report says checksum_blank or has a gso_type, and cuts it
 * by gso_size; nothing here leaves this host, so checksums of the guest are not looked at, and a
 * large segment is taken as it is.
 */
#ifndef TOLLMEANDER_ANSWERER_H
#define TOLLMEANDER_ANSWERER_H

#include <stdbool.h>
#include <stdint.h>

#include "outbox.h"

enum { ANSWERER_CONNECTIONS = 64 };

/* A TCP connection, with the sequence numbers that come next. */
struct connection {
    uint32_t ports;                 /* theirs and ours, as on the wire; 0 if free */
    uint32_t next_out;
    uint32_t next_in;
    bool closed;
};

struct answerer {
    struct connection connection[ANSWERER_CONNECTIONS];
    unsigned opened;                /* so far; the oldest makes room */
};

/*
 * Answers a frame of 14 bytes or more, if there is an answer: at most some 69,000 bytes, for
 * which an empty outbox has room.
 */
void answerer_take(struct answerer *answerer, const uint8_t *frame, uint32_t length,
                   struct outbox *outbox);

#endif
