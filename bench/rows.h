/*
 * The rows of the tables.
 */
#ifndef BENCH_ROWS_H
#define BENCH_ROWS_H

#include "measure.h"

enum {
    CASE_ROWS = 32,
    SLOT_ROWS = TOLLMEANDER_PACKET_DATA_MAX,
    BYTE_ROWS = 9
};

/* All that is measured: the cases; the same bytes in 1 to 18 slots; bytes in as few slots as hold them. */
struct results {
    struct result cases[CASE_ROWS];
    struct result slots[SLOT_ROWS];
    struct result transmit[BYTE_ROWS];
    struct result receive[BYTE_ROWS];
};

/* Says of each row what it is about. */
void rows_describe(struct results *results);

#endif
