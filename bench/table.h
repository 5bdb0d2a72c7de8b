/*
 * Prints what was measured.
 */
#ifndef BENCH_TABLE_H
#define BENCH_TABLE_H

#include "rows.h"

/* The table of cases. */
void print_cases(struct results *results);

/* How the cost grows with slots and with bytes. */
void print_growth(const struct results *results);

/* The case in which the library is slowest beside plain C. */
void print_worst(const struct results *results);

#endif
