#include "xen.h"

#include <errno.h>
#include <stdio.h>
#include <string.h>

static bool cannot(const char *what)
{
    fprintf(stderr, "tollmeander-xen: Xen cannot be reached: %s: %s\n", what, strerror(errno));
    return false;
}

bool xen_open(struct xen *xen)
{
    *xen = (struct xen){ NULL, NULL, NULL };
    xen->store = xs_open(0);
    if (!xen->store)
        return cannot("XenStore (does xenstored run in this domain?)");
    xen->grants = xengnttab_open(NULL, 0);
    if (!xen->grants)
        return cannot("grants (/dev/xen/gntdev: module xen-gntdev, and root)");
    xen->events = xenevtchn_open(NULL, 0);
    if (!xen->events)
        return cannot("event channels (/dev/xen/evtchn: module xen-evtchn, and root)");
    return true;
}

void xen_close(struct xen *xen)
{
    if (xen->events)
        xenevtchn_close(xen->events);
    if (xen->grants)
        xengnttab_close(xen->grants);
    if (xen->store)
        xs_close(xen->store);
}
