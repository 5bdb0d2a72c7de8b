/* The connections that have ended, and the table of them that is printed on exit. */
#ifndef TOLLMEANDER_TABLE_H
#define TOLLMEANDER_TABLE_H

#include "counters.h"

enum {
    TABLE_LINES = 100,              /* the latest; those before are one line together */
    TABLE_NAME = 24
};

struct table_line {
    char name[TABLE_NAME];          /* the vif: DOMID/DEVICE */
    const char *end;                /* why the connection ended; lasts as long as the program */
    struct counters count;
};

struct table {
    uint64_t connections;           /* that have ever ended */
    struct table_line line[TABLE_LINES];    /* that of connection n at n % TABLE_LINES */
    struct counters earlier;        /* those that are not in a line any more */
};

void table_add(struct table *table, const char *name, const char *end,
               const struct counters *count);
void table_print(const struct table *table);

#endif
