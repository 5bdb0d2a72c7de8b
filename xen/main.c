/*
 * A back end for Xen's network devices: serves every vif that the toolstack gives to this
 * domain, with a very small network behind each (answerer.h). Prints a line when a guest
 * connects or goes, and on exit a table of all connections.
 *
 * Exit status: 0 after SIGINT or SIGTERM, with every vif closed; 1 if Xen cannot be
 * reached; 2 for wrong usage.
 */
#include <errno.h>
#include <poll.h>
#include <signal.h>
#include <stdio.h>
#include <string.h>
#include <sys/signalfd.h>
#include <unistd.h>

#include "vifs.h"

/* Where the kernel's own back end stands when it is loaded. */
#define NETBACK "/sys/bus/xen-backend/drivers/vif"

enum { A_SECOND = 1000 };

/* A descriptor that can be read once a signal asks us to stop; -1 if there can be none. */
static int open_stop(void)
{
    sigset_t signals;

    sigemptyset(&signals);
    sigaddset(&signals, SIGINT);
    sigaddset(&signals, SIGTERM);
    signal(SIGPIPE, SIG_IGN);
    if (sigprocmask(SIG_BLOCK, &signals, NULL) != 0)
        return -1;
    return signalfd(-1, &signals, SFD_CLOEXEC);
}

static int complain(const char *what)
{
    fprintf(stderr, "tollmeander-xen: %s: %s\n", what, strerror(errno));
    return 1;
}

static void on_event(struct vifs *vifs)
{
    int port = xenevtchn_pending(vifs->xen->events);

    if (port >= 0)
        vifs_on_event(vifs, port);
}

/* Serves until a signal comes; the exit status. */
static int run(struct vifs *vifs, int stop)
{
    struct pollfd wait[] = {
        { .fd = stop, .events = POLLIN },
        { .fd = xs_fileno(vifs->xen->store), .events = POLLIN },
        { .fd = xenevtchn_fd(vifs->xen->events), .events = POLLIN }
    };

    for (;;) {
        bool more = vifs_turn(vifs);

        if (poll(wait, 3, more ? 0 : vifs_wait(vifs) ? A_SECOND : -1) < 0) {
            if (errno == EINTR)
                continue;
            return complain("poll");
        }
        if (wait[0].revents)
            return 0;
        if ((wait[1].revents | wait[2].revents) & (POLLERR | POLLHUP | POLLNVAL))
            return complain("Xen is not there any more");
        if (wait[1].revents)
            vifs_on_watch(vifs);
        if (wait[2].revents)
            on_event(vifs);
    }
}

static int serve(const struct xen *xen)
{
    static struct vifs vifs;
    int stop = open_stop(), status;

    if (stop < 0)
        return complain("signals");
    if (!vifs_open(&vifs, xen))
        return complain(VIF_ROOT " in XenStore cannot be watched");
    status = run(&vifs, stop);
    vifs_close(&vifs);
    close(stop);
    table_print(&vifs.table);
    return status;
}

int main(int argc, char **argv)
{
    struct xen xen;
    int status = 1;

    if (argc != 1) {
        fprintf(stderr, "usage: tollmeander-xen\n"
                "It takes no arguments (%s): it serves every vif of this domain until SIGTERM.\n",
                argv[1]);
        return 2;
    }
    if (access(NETBACK, F_OK) == 0) {
        fprintf(stderr, "tollmeander-xen: the kernel's xen-netback is loaded, and claims the same "
                "vifs: unload it first\n");
        return 1;
    }
    if (xen_open(&xen))
        status = serve(&xen);
    xen_close(&xen);
    return status;
}
