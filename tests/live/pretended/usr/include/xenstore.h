/* Of Xen's xenstore.h what xen/ uses, to compile it where libxen-dev is not there. */
#ifndef PRETENDED_XENSTORE_H
#define PRETENDED_XENSTORE_H

#include <stdbool.h>
#include <stdint.h>

#define XBT_NULL 0

enum xs_watch_type { XS_WATCH_PATH, XS_WATCH_TOKEN };

struct xs_handle;
typedef uint32_t xs_transaction_t;

struct xs_handle *xs_open(unsigned long flags);
void xs_close(struct xs_handle *store);
int xs_fileno(struct xs_handle *store);
void *xs_read(struct xs_handle *store, xs_transaction_t change, const char *path,
              unsigned int *length);
bool xs_write(struct xs_handle *store, xs_transaction_t change, const char *path,
              const void *text, unsigned int length);
char **xs_directory(struct xs_handle *store, xs_transaction_t change, const char *path,
                    unsigned int *count);
xs_transaction_t xs_transaction_start(struct xs_handle *store);
bool xs_transaction_end(struct xs_handle *store, xs_transaction_t change, bool abort);
bool xs_watch(struct xs_handle *store, const char *path, const char *token);
bool xs_unwatch(struct xs_handle *store, const char *path, const char *token);
char **xs_check_watch(struct xs_handle *store);

#endif
