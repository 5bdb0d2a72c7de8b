/*
 * A pretended Xen under xen/, for queue_test.c: grants and event channels of one guest, the clock,
 * and a XenStore that is empty. The test plays the guest, by writing to the ring pages.
 */
#ifndef PRETEND_H
#define PRETEND_H

#include <stdbool.h>
#include <stdint.h>

#include "ring_page.h"

enum {
    PRETEND_PAGES = 512,            /* data pages: the references below this */
    PRETEND_TRANSMIT = 1000,        /* references of the ring pages */
    PRETEND_RECEIVE = 1001,
    PRETEND_CHANNEL = 7,            /* the guest's event channel, and the port it is bound to */
    PRETEND_PORT = 9
};

struct pretend {
    struct ring_page transmit, receive;
    uint8_t page[PRETEND_PAGES][TOLLMEANDER_PAGE_SIZE];
    bool revoked[PRETEND_PAGES];    /* Xen refuses copies */
    int mapped, bound;              /* ring pages and channels now */
    unsigned unmasked;              /* events acknowledged so far */
    unsigned notified;              /* events sent to the guest so far */
    unsigned wrong;                 /* calls with arguments that were never given out */
    int64_t seconds;                /* the clock */
};

extern struct pretend pretend;

#endif
