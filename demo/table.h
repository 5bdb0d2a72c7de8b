/* What the demo prints at the end. */
#ifndef TABLE_H
#define TABLE_H

#include "guest.h"
#include "vif.h"

void table_print_head(void);

/* The line of one guest and its device. */
void table_print_line(unsigned number, const struct guest *guest, const struct vif *vif);

/* What all guests came to. */
void table_print_summary(const struct guest *guests, const struct vif *vifs, unsigned count,
                         double seconds);

#endif
