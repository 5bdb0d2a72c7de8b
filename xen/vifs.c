#include "vifs.h"

#include <stdio.h>
#include <stdlib.h>
#include <string.h>

/* No guest may hold the host for longer by writing to XenStore. */
enum { WATCHES_A_TURN = 16 };

/* The place of the vif with this folder; -1 if there is none. */
static int find(const struct vifs *vifs, const char *folder)
{
    for (int i = 0; i < VIFS_MOST; i++)
        if (vifs->vif[i] && strcmp(vifs->vif[i]->folder, folder) == 0)
            return i;
    return -1;
}

static int find_free(const struct vifs *vifs)
{
    for (int i = 0; i < VIFS_MOST; i++)
        if (!vifs->vif[i])
            return i;
    return -1;
}

/* Serves a vif that is not known yet; -1, and it is counted, if that cannot be. */
static int add(struct vifs *vifs, const char *folder, struct left_out *left)
{
    int place = find_free(vifs);
    struct vif *vif;

    if (place < 0 && !store_lacks(vifs->xen->store, folder, "frontend")) {
        left->no_room++;
        return -1;
    }
    vif = place < 0 ? NULL : malloc(sizeof *vif);
    if (!vif || !vif_open(vif, vifs->xen, &vifs->device, &vifs->table, folder)) {
        left->no_vif++;
        free(vif);
        return -1;
    }
    vifs->vif[place] = vif;
    return place;
}

/* Adds the vifs of one guest. */
static void add_of_guest(struct vifs *vifs, const char *guest, struct left_out *left)
{
    char folder[STORE_PATH];
    unsigned count = 0;
    char **names;

    snprintf(folder, sizeof folder, VIF_ROOT "/%.20s", guest);
    names = xs_directory(vifs->xen->store, XBT_NULL, folder, &count);
    for (unsigned i = 0; names && i < count; i++) {
        snprintf(folder, sizeof folder, VIF_ROOT "/%.20s/%.20s", guest, names[i]);
        if (find(vifs, folder) < 0)
            add(vifs, folder, left);
    }
    free(names);
}

/* Says how many are left out, when that has changed. */
static void say_left_out(struct vifs *vifs, const struct left_out *left)
{
    if (left->no_room != vifs->said.no_room)
        printf("vifs that wait for room, as %d are served: %u\n", VIFS_MOST, left->no_room);
    if (left->no_vif != vifs->said.no_vif)
        printf("folders of " VIF_ROOT " without a frontend and its number, left alone: %u\n",
               left->no_vif);
    fflush(stdout);
    vifs->said = *left;
}

static void add_all(struct vifs *vifs)
{
    struct left_out left = { 0, 0 };
    unsigned count = 0;
    char **guests = xs_directory(vifs->xen->store, XBT_NULL, VIF_ROOT, &count);

    for (unsigned i = 0; guests && i < count; i++)
        add_of_guest(vifs, guests[i], &left);
    free(guests);
    say_left_out(vifs, &left);
}

static void remove_at(struct vifs *vifs, int place, const char *why)
{
    vif_close(vifs->vif[place], why);
    free(vifs->vif[place]);
    vifs->vif[place] = NULL;
}

static void look_at_all(struct vifs *vifs)
{
    for (int i = 0; i < VIFS_MOST; i++)
        if (vifs->vif[i] && vif_is_gone(vifs->vif[i]))
            remove_at(vifs, i, "the guest is gone");
    add_all(vifs);
    for (int i = 0; i < VIFS_MOST; i++)
        if (vifs->vif[i])
            vif_update(vifs->vif[i]);
}

/* The vif's folder that a path below the root is in; false if it is not in one. */
static bool folder_of(const char *path, char folder[STORE_PATH])
{
    const size_t root = strlen(VIF_ROOT "/");
    size_t length;

    if (strncmp(path, VIF_ROOT "/", root) != 0)
        return false;
    length = root + strcspn(path + root, "/");
    if (path[length] != '/')
        return false;
    length += 1 + strcspn(path + length + 1, "/");
    if (length >= STORE_PATH)
        return false;
    memcpy(folder, path, length);
    folder[length] = '\0';
    return true;
}

/* Something has changed at a path below the root; whether all must be looked at. */
static bool on_path(struct vifs *vifs, const char *path)
{
    struct left_out left = { 0, 0 };
    char folder[STORE_PATH];
    int place;

    if (!folder_of(path, folder))
        return true;
    place = find(vifs, folder);
    if (place < 0)
        place = add(vifs, folder, &left);
    if (place < 0)
        return true;
    if (vif_is_gone(vifs->vif[place])) {
        remove_at(vifs, place, "the guest is gone");
        return vifs->said.no_room > 0;
    }
    vif_update(vifs->vif[place]);
    return false;
}

/* A watch's token is the root, or the folder of the vif whose guest has changed its state. */
void vifs_on_watch(struct vifs *vifs)
{
    bool at_all = false;
    char **what;

    for (int n = 0; n < WATCHES_A_TURN; n++) {
        int place;

        what = xs_check_watch(vifs->xen->store);
        if (!what)
            break;
        place = find(vifs, what[XS_WATCH_TOKEN]);
        if (place >= 0)
            vif_update(vifs->vif[place]);
        else if (strcmp(what[XS_WATCH_TOKEN], VIF_ROOT) == 0)
            at_all |= on_path(vifs, what[XS_WATCH_PATH]);
        free(what);
    }
    if (at_all)
        look_at_all(vifs);
}

void vifs_on_event(struct vifs *vifs, int port)
{
    for (unsigned i = 0; i < VIFS_MOST; i++)
        if (vifs->vif[i] && vifs->vif[i]->queue && vifs->vif[i]->queue->port == port)
            queue_on_event(vifs->vif[i]->queue);
}

/* The device's word on a packet goes to its connection; if that is over, nowhere. */
static void finish(struct vifs *vifs, struct back_ticket ticket, int32_t status)
{
    for (unsigned i = 0; i < VIFS_MOST; i++) {
        struct queue *queue = vifs->vif[i] ? vifs->vif[i]->queue : NULL;

        if (queue && queue->transmit.connection == ticket.connection) {
            queue_finish(queue, ticket, status);
            return;
        }
    }
}

/* Whether the device had something to say. */
static bool hear_device(struct vifs *vifs)
{
    struct back_ticket ticket;
    bool heard = false;
    int32_t status;

    for (; device_confirm(&vifs->device, &ticket, &status); heard = true)
        finish(vifs, ticket, status);
    return heard;
}

bool vifs_turn(struct vifs *vifs)
{
    bool more = false;

    for (unsigned i = 0; i < VIFS_MOST; i++)
        if (vifs->vif[i])
            more |= vif_turn(vifs->vif[i]);
    return hear_device(vifs) || more;
}

bool vifs_wait(const struct vifs *vifs)
{
    for (unsigned i = 0; i < VIFS_MOST; i++)
        if (vifs->vif[i] && vifs->vif[i]->queue && queue_waits(vifs->vif[i]->queue))
            return true;
    return false;
}

bool vifs_open(struct vifs *vifs, const struct xen *xen)
{
    memset(vifs, 0, sizeof *vifs);
    vifs->xen = xen;
    return xs_watch(xen->store, VIF_ROOT, VIF_ROOT);
}

void vifs_close(struct vifs *vifs)
{
    for (int i = 0; i < VIFS_MOST; i++)
        if (vifs->vif[i])
            remove_at(vifs, i, "this host stops");
    xs_unwatch(vifs->xen->store, VIF_ROOT, VIF_ROOT);
}
