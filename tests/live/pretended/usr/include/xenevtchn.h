/* Of Xen's xenevtchn.h what xen/ uses, to compile it where libxen-dev is not there. */
#ifndef PRETENDED_XENEVTCHN_H
#define PRETENDED_XENEVTCHN_H

#include <stdint.h>

typedef uint32_t evtchn_port_t;
typedef int xenevtchn_port_or_error_t;
typedef struct xenevtchn_handle xenevtchn_handle;

struct xentoollog_logger;

xenevtchn_handle *xenevtchn_open(struct xentoollog_logger *logger, unsigned int flags);
int xenevtchn_close(xenevtchn_handle *events);
int xenevtchn_fd(xenevtchn_handle *events);
xenevtchn_port_or_error_t xenevtchn_pending(xenevtchn_handle *events);
xenevtchn_port_or_error_t xenevtchn_bind_interdomain(xenevtchn_handle *events, uint32_t domid,
                                                     evtchn_port_t channel);
int xenevtchn_unbind(xenevtchn_handle *events, evtchn_port_t port);
int xenevtchn_notify(xenevtchn_handle *events, evtchn_port_t port);
int xenevtchn_unmask(xenevtchn_handle *events, evtchn_port_t port);

#endif
