/* Bits and numbers of slots, as netif.h has them. */
#ifndef SLOT_BITS_H
#define SLOT_BITS_H

enum {
    CHECKSUM_BLANK = 1 << 0,
    DATA_VALIDATED = 1 << 1,
    MORE_DATA = 1 << 2,         /* also in receive replies */
    EXTRA_FOLLOWS = 1 << 3,
    EXTRA_TYPE_GSO = 1,
    EXTRA_MORE = 1 << 0
};

#endif
