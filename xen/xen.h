/* The three doors to Xen, opened once. */
#ifndef TOLLMEANDER_XEN_H
#define TOLLMEANDER_XEN_H

#include <stdbool.h>

#include <xenevtchn.h>
#include <xengnttab.h>
#include <xenstore.h>

struct xen {
    struct xs_handle *store;
    xengnttab_handle *grants;
    xenevtchn_handle *events;
};

/* False, with a message on which one could not be opened and why. */
bool xen_open(struct xen *xen);

/* Also after an open that failed. */
void xen_close(struct xen *xen);

#endif
