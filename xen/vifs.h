/* The vifs that the toolstack has given to this domain. */
#ifndef TOLLMEANDER_VIFS_H
#define TOLLMEANDER_VIFS_H

#include <stdbool.h>

#include "device.h"
#include "table.h"
#include "vif.h"
#include "xen.h"

enum { VIFS_MOST = 64 };

/* What is in XenStore and is not served. */
struct left_out {
    unsigned no_room;               /* vifs that wait until another one goes */
    unsigned no_vif;                /* folders that are no vif's */
};

struct vifs {
    const struct xen *xen;
    struct vif *vif[VIFS_MOST];     /* NULL where there is none */
    struct left_out said;           /* as far as was said */
    struct device device;
    struct table table;
};

/* Begins to watch for vifs; those that are there are found by the first vifs_on_watch. */
bool vifs_open(struct vifs *vifs, const struct xen *xen);

/* Closes every vif. */
void vifs_close(struct vifs *vifs);

/* Something has changed in XenStore. */
void vifs_on_watch(struct vifs *vifs);

/* An event has come on a port. */
void vifs_on_event(struct vifs *vifs, int port);

/* Gives each vif its turn and hears the device; whether there is more to do at once. */
bool vifs_turn(struct vifs *vifs);

/* Whether a turn is due in a second, also if nothing happens. */
bool vifs_wait(const struct vifs *vifs);

#endif
