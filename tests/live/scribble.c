/*
 * Runs in dom0: plays a guest that breaks the rules of its rings, by writing to a ring page
 * behind the guest's back.
 *
 *     scribble DOMID overflow      transmit: req_prod 1000 slots ahead
 *     scribble DOMID misshapen     transmit: an extra slot of a type that is not known
 *     scribble DOMID receive       receive: req_prod 1000 slots ahead
 *     scribble DOMID send-page     transmit: the last slot posted names a page that is not granted
 *     scribble DOMID receive-page  receive: the first two slots name a page that is not granted
 */
#include <stdint.h>
#include <stdio.h>
#include <stdlib.h>
#include <string.h>
#include <sys/mman.h>
#include <xengnttab.h>
#include <xenstore.h>

/* Words of a ring page and of its slots, and a reference that the guest does not use. */
enum { REQ_PROD = 0, FIRST_SLOT = 16, SLOTS = 256, AHEAD = 1000, NOT_GRANTED = 20000 };
enum { TRANSMIT_WORDS = 3, TRANSMIT_REFERENCE = 0, RECEIVE_WORDS = 2, RECEIVE_REFERENCE = 1 };

/* A ring page of the guest's, or NULL. */
static volatile uint32_t *map_ring(const char *domid, const char *key)
{
    struct xs_handle *store = xs_open(0);
    xengnttab_handle *grants = xengnttab_open(NULL, 0);
    char path[128], *reference;
    unsigned length;

    if (!store || !grants)
        return NULL;
    snprintf(path, sizeof path, "/local/domain/%s/device/vif/0/%s", domid, key);
    reference = xs_read(store, XBT_NULL, path, &length);
    if (!reference)
        return NULL;
    return xengnttab_map_grant_ref(grants, (uint32_t)atoi(domid), (uint32_t)atoi(reference),
                                   PROT_READ | PROT_WRITE);
}

static volatile uint32_t *transmit_slot(volatile uint32_t *ring, uint32_t n)
{
    return ring + FIRST_SLOT + TRANSMIT_WORDS * (n % SLOTS);
}

/* Posts a data slot that an extra follows, and an extra of type 99. */
static void post_misshapen(volatile uint32_t *ring)
{
    uint32_t at = ring[REQ_PROD];
    volatile uint32_t *data = transmit_slot(ring, at);

    data[0] = 1;
    data[1] = 8u << 16;
    data[2] = 60u << 16;
    transmit_slot(ring, at + 1)[0] = 99;
    __sync_synchronize();
    ring[REQ_PROD] = at + 2;
}

/* Does to a ring what its name says; false if there is none of that name. */
static int scribble(volatile uint32_t *ring, const char *how)
{
    if (strcmp(how, "overflow") == 0 || strcmp(how, "receive") == 0) {
        ring[REQ_PROD] += AHEAD;
    } else if (strcmp(how, "misshapen") == 0) {
        post_misshapen(ring);
    } else if (strcmp(how, "send-page") == 0) {
        transmit_slot(ring, ring[REQ_PROD] - 1)[TRANSMIT_REFERENCE] = NOT_GRANTED;
    } else if (strcmp(how, "receive-page") == 0) {
        for (int n = 0; n < 2; n++)
            ring[FIRST_SLOT + RECEIVE_WORDS * n + RECEIVE_REFERENCE] = NOT_GRANTED;
    } else {
        return 0;
    }
    return 1;
}

int main(int argc, char **argv)
{
    volatile uint32_t *ring;

    if (argc != 3)
        return 2;
    ring = map_ring(argv[1], strncmp(argv[2], "receive", 7) == 0 ? "rx-ring-ref" : "tx-ring-ref");
    if (!ring)
        return 1;
    if (!scribble(ring, argv[2]))
        return 2;
    printf("scribble: %s, req_prod is now %u\n", argv[2], ring[REQ_PROD]);
    return 0;
}
