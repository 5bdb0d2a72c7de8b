/*
 * One vif: the handshake of states in XenStore between the toolstack, the guest and us.
 *
 *     guest                 we
 *     -----                 --
 *     initialising     ->   advertise, init-wait
 *     connected        ->   map its rings, connected; or closing, if that fails
 *     closing          ->   unmap its rings, closing
 *     closed, or gone  ->   unmap its rings, closed
 *     nonsense         ->   unmap its rings, closing
 *     (ring halted)         unmap its rings, closing
 *
 * A guest may begin anew after "closed", as Linux does when its driver is loaded again. A
 * guest that does not answer is waited for, as long as the toolstack leaves the vif there.
 */
#ifndef TOLLMEANDER_VIF_H
#define TOLLMEANDER_VIF_H

#include <stdbool.h>

#include "queue.h"
#include "store.h"
#include "table.h"
#include "xen.h"

#define VIF_ROOT "backend/vif"

struct vif {
    const struct xen *xen;
    struct device *device;
    struct table *table;
    char folder[STORE_PATH];        /* ours in XenStore: backend/vif/DOMID/DEVICE */
    char frontend[STORE_PATH];      /* the guest's */
    uint16_t domid;
    enum device_state state;        /* as we have last said it */
    struct queue *queue;            /* NULL unless connected */
    unsigned lines;                 /* said of it so far */
};

/* Begins to watch the guest's end; false if the folder is not a vif's. The token is the folder. */
bool vif_open(struct vif *vif, const struct xen *xen, struct device *device, struct table *table,
              const char *folder);

/* Disconnects, and watches no more. Says "closed" in XenStore if the folder is still there. */
void vif_close(struct vif *vif, const char *why);

/* Whether the toolstack has taken the vif away. */
bool vif_is_gone(const struct vif *vif);

/* Follows the guest's state. */
void vif_update(struct vif *vif);

/* Serves some packets; whether there is more to do at once. */
bool vif_turn(struct vif *vif);

#endif
