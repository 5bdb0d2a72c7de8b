#include "pretend.h"

#include <errno.h>
#include <string.h>
#include <time.h>
#include <xenevtchn.h>
#include <xengnttab.h>
#include <xenstore.h>

struct pretend pretend;

int clock_gettime(clockid_t clock, struct timespec *time)
{
    (void)clock;
    *time = (struct timespec){ .tv_sec = (time_t)pretend.seconds };
    return 0;
}

void *xengnttab_map_grant_ref(xengnttab_handle *grants, uint32_t domid, uint32_t reference,
                              int access)
{
    (void)grants, (void)domid, (void)access;
    if (reference != PRETEND_TRANSMIT && reference != PRETEND_RECEIVE)
        return NULL;
    pretend.mapped++;
    return reference == PRETEND_TRANSMIT ? &pretend.transmit : &pretend.receive;
}

int xengnttab_unmap(xengnttab_handle *grants, void *address, uint32_t count)
{
    (void)grants;
    if (count != 1 || (address != &pretend.transmit && address != &pretend.receive))
        pretend.wrong++;
    pretend.mapped--;
    return 0;
}

static int16_t copy_one(const xengnttab_grant_copy_segment_t *copy)
{
    bool in = copy->flags == GNTCOPY_source_gref;
    uint32_t reference = in ? copy->source.foreign.ref : copy->dest.foreign.ref;

    if (copy->len > TOLLMEANDER_PAGE_SIZE)
        pretend.wrong++;
    if (reference >= PRETEND_PAGES || pretend.revoked[reference])
        return GNTST_bad_gntref;
    if (in)
        memcpy(copy->dest.virt, pretend.page[reference], copy->len);
    else
        memcpy(pretend.page[reference], copy->source.virt, copy->len);
    return GNTST_okay;
}

int xengnttab_grant_copy(xengnttab_handle *grants, uint32_t count,
                         xengnttab_grant_copy_segment_t *copies)
{
    (void)grants;
    for (uint32_t i = 0; i < count; i++)
        copies[i].status = copy_one(&copies[i]);
    return 0;
}

xenevtchn_port_or_error_t xenevtchn_bind_interdomain(xenevtchn_handle *events, uint32_t domid,
                                                     evtchn_port_t channel)
{
    (void)events, (void)domid;
    if (channel != PRETEND_CHANNEL)
        return -1;
    pretend.bound++;
    return PRETEND_PORT;
}

int xenevtchn_unbind(xenevtchn_handle *events, evtchn_port_t port)
{
    (void)events;
    pretend.wrong += port != PRETEND_PORT;
    pretend.bound--;
    return 0;
}

int xenevtchn_notify(xenevtchn_handle *events, evtchn_port_t port)
{
    (void)events;
    pretend.wrong += port != PRETEND_PORT;
    pretend.notified++;
    return 0;
}

int xenevtchn_unmask(xenevtchn_handle *events, evtchn_port_t port)
{
    (void)events;
    pretend.wrong += port != PRETEND_PORT;
    pretend.unmasked++;
    return 0;
}

void *xs_read(struct xs_handle *store, xs_transaction_t change, const char *path, unsigned *length)
{
    (void)store, (void)change, (void)path, (void)length;
    errno = ENOENT;
    return NULL;
}

char **xs_directory(struct xs_handle *store, xs_transaction_t change, const char *path,
                    unsigned *count)
{
    (void)store, (void)change, (void)path, (void)count;
    errno = ENOENT;
    return NULL;
}

bool xs_write(struct xs_handle *store, xs_transaction_t change, const char *path,
              const void *text, unsigned length)
{
    (void)store, (void)change, (void)path, (void)text, (void)length;
    return false;
}

xs_transaction_t xs_transaction_start(struct xs_handle *store)
{
    (void)store;
    return XBT_NULL;
}

bool xs_transaction_end(struct xs_handle *store, xs_transaction_t change, bool abort)
{
    (void)store, (void)change, (void)abort;
    return false;
}

bool xs_watch(struct xs_handle *store, const char *path, const char *token)
{
    (void)store, (void)path, (void)token;
    return true;
}

bool xs_unwatch(struct xs_handle *store, const char *path, const char *token)
{
    (void)store, (void)path, (void)token;
    return true;
}

char **xs_check_watch(struct xs_handle *store)
{
    (void)store;
    errno = EAGAIN;
    return NULL;
}
