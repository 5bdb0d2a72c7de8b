#include "vif.h"

#include <stdio.h>
#include <stdlib.h>
#include <string.h>

enum {
    MOST_DOMID = 0x7FEF,
    MOST_PORT = (1 << 17) - 1,
    MOST_LINES = 100                /* a guest can begin anew for ever, and would fill the log */
};

/* What the library takes, and nothing else: another extra than gso would halt the ring. */
static const char *const features[] = {
    "feature-sg", "feature-rx-copy", "feature-gso-tcpv4", "feature-gso-tcpv6",
    "feature-ipv6-csum-offload"
};

static const char *name_of(const struct vif *vif)
{
    return vif->folder + strlen(VIF_ROOT "/");
}

static void say(struct vif *vif, const char *what)
{
    if (vif->lines > MOST_LINES)
        return;
    vif->lines++;
    printf("vif %s: %s\n", name_of(vif), vif->lines > MOST_LINES ? "and so on" : what);
    fflush(stdout);
}

static void set_state(struct vif *vif, enum device_state state)
{
    if (vif->state != state && !store_write(vif->xen->store, vif->folder, "state", state) &&
        !vif_is_gone(vif))
        say(vif, "our state cannot be written to XenStore");
    vif->state = state;
}

static bool watch_guest(const struct vif *vif, bool on)
{
    char path[STORE_PATH + 8];

    snprintf(path, sizeof path, "%s/state", vif->frontend);
    return on ? xs_watch(vif->xen->store, path, vif->folder)
              : xs_unwatch(vif->xen->store, path, vif->folder);
}

bool vif_open(struct vif *vif, const struct xen *xen, struct device *device, struct table *table,
              const char *folder)
{
    char *frontend = store_text(xen->store, folder, "frontend");
    uint32_t domid;
    bool good = frontend && strlen(frontend) < STORE_PATH && strlen(folder) < STORE_PATH &&
                store_number(xen->store, folder, "frontend-id", MOST_DOMID, &domid);

    memset(vif, 0, sizeof *vif);
    if (good) {
        vif->xen = xen;
        vif->device = device;
        vif->table = table;
        vif->domid = (uint16_t)domid;
        strcpy(vif->folder, folder);
        strcpy(vif->frontend, frontend);
        good = watch_guest(vif, true);
    }
    free(frontend);
    return good;
}

static void disconnect(struct vif *vif, const char *why)
{
    if (!vif->queue)
        return;
    table_add(vif->table, name_of(vif), why, queue_last_count(vif->queue));
    queue_disconnect(vif->queue);
    vif->queue = NULL;
    say(vif, why);
}

/* Reads what the guest offers; NULL, or what is wrong with it. */
static const char *read_offer(const struct vif *vif, struct queue_offer *offer)
{
    struct xs_handle *store = vif->xen->store;
    const char *guest = vif->frontend;

    offer->domid = vif->domid;
    offer->scatter_gather = store_flag(store, guest, "feature-sg");
    if (!store_flag(store, guest, "request-rx-copy"))
        return "the guest's request-rx-copy is not 1";
    if (!store_number(store, guest, "tx-ring-ref", UINT32_MAX, &offer->transmit_ring))
        return "the guest's tx-ring-ref is missing or no grant reference";
    if (!store_number(store, guest, "rx-ring-ref", UINT32_MAX, &offer->receive_ring))
        return "the guest's rx-ring-ref is missing or no grant reference";
    if (!store_number(store, guest, "event-channel", MOST_PORT, &offer->event_channel))
        return "the guest's event-channel is missing or no port";
    return NULL;
}

static void connect_guest(struct vif *vif)
{
    struct queue_offer offer;
    const char *why = read_offer(vif, &offer);

    if (!why)
        vif->queue = queue_connect(vif->xen, vif->device, &offer, &why);
    say(vif, vif->queue ? "connected" : why);
    set_state(vif, vif->queue ? STATE_CONNECTED : STATE_CLOSING);
}

static void advertise(struct vif *vif)
{
    for (size_t i = 0; i < sizeof features / sizeof *features; i++)
        store_write(vif->xen->store, vif->folder, features[i], 1);
    say(vif, "waiting for the guest");
    set_state(vif, STATE_INIT_WAIT);
}

/* Ends a connection, or what was to become one, from our side. */
static void refuse(struct vif *vif, const char *why)
{
    if (vif->queue)
        disconnect(vif, why);
    else if (vif->state != STATE_CLOSING)
        say(vif, why);
    set_state(vif, STATE_CLOSING);
}

/* The guest says that its end is connected. */
static void on_connected(struct vif *vif)
{
    if (vif->state == STATE_INIT_WAIT)
        connect_guest(vif);
    else if (vif->state == STATE_UNKNOWN)
        refuse(vif, "connected to a host before us, whose place in the rings is not known");
}

void vif_update(struct vif *vif)
{
    switch (store_state(vif->xen->store, vif->frontend)) {
    case STATE_INITIALISING:
        disconnect(vif, "the guest begins anew");
        if (vif->state != STATE_INIT_WAIT)
            advertise(vif);
        break;
    case STATE_INITIALISED:
    case STATE_CONNECTED:
        on_connected(vif);
        break;
    case STATE_CLOSING:
        disconnect(vif, "the guest closes");
        set_state(vif, STATE_CLOSING);
        break;
    case STATE_CLOSED:
    case STATE_UNKNOWN:
        disconnect(vif, "the guest has closed");
        set_state(vif, STATE_CLOSED);
        break;
    case STATE_MISSING:
        disconnect(vif, "the guest is gone");
        set_state(vif, STATE_CLOSED);
        break;
    case STATE_NONSENSE:
        refuse(vif, "the guest's state makes no sense");
        break;
    case STATE_INIT_WAIT:
    case STATE_RECONFIGURING:
    case STATE_RECONFIGURED:
        break;
    }
}

bool vif_turn(struct vif *vif)
{
    bool more = vif->queue && queue_turn(vif->queue);

    if (vif->queue && vif->queue->end)
        refuse(vif, vif->queue->end);
    return more;
}

bool vif_is_gone(const struct vif *vif)
{
    return store_lacks(vif->xen->store, vif->folder, "frontend");
}

void vif_close(struct vif *vif, const char *why)
{
    disconnect(vif, why);
    watch_guest(vif, false);
    set_state(vif, STATE_CLOSED);
}
