/* Of Xen's xengnttab.h what xen/ uses, to compile it where libxen-dev is not there. */
#ifndef PRETENDED_XENGNTTAB_H
#define PRETENDED_XENGNTTAB_H

#include <stdint.h>

#define GNTCOPY_source_gref 1
#define GNTCOPY_dest_gref   2
#define GNTST_okay          0
#define GNTST_bad_gntref    (-3)

typedef struct xengntdev_handle xengnttab_handle;

struct xengnttab_grant_copy_segment {
    union xengnttab_copy_ptr {
        void *virt;
        struct {
            uint32_t ref;
            uint16_t offset;
            uint16_t domid;
        } foreign;
    } source, dest;
    uint16_t len;
    uint16_t flags;
    int16_t status;
};

typedef struct xengnttab_grant_copy_segment xengnttab_grant_copy_segment_t;

struct xentoollog_logger;

xengnttab_handle *xengnttab_open(struct xentoollog_logger *logger, unsigned open_flags);
int xengnttab_close(xengnttab_handle *grants);
void *xengnttab_map_grant_ref(xengnttab_handle *grants, uint32_t domid, uint32_t reference,
                              int access);
int xengnttab_unmap(xengnttab_handle *grants, void *address, uint32_t count);
int xengnttab_grant_copy(xengnttab_handle *grants, uint32_t count,
                         xengnttab_grant_copy_segment_t *copies);

#endif
