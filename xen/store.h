/*
 * XenStore, as far as a back end needs it. A folder is a path without a slash at its end.
 *
 * NOTE: What stands in the guest's folder is the guest's word. It may be missing, change at
 *       any time, and be anything.
 */
#ifndef TOLLMEANDER_STORE_H
#define TOLLMEANDER_STORE_H

#include <stdbool.h>
#include <stdint.h>

#include <xenstore.h>

enum { STORE_PATH = 256 };

/* Xen's public xenbus.h, and two for a state that is not there or none of these. */
enum device_state {
    STATE_UNKNOWN = 0,
    STATE_INITIALISING = 1,
    STATE_INIT_WAIT = 2,
    STATE_INITIALISED = 3,
    STATE_CONNECTED = 4,
    STATE_CLOSING = 5,
    STATE_CLOSED = 6,
    STATE_RECONFIGURING = 7,
    STATE_RECONFIGURED = 8,
    STATE_MISSING,
    STATE_NONSENSE
};

/* The text at folder/key, to be freed; NULL with errno ENOENT if there is none. */
char *store_text(struct xs_handle *store, const char *folder, const char *key);

/* Whether folder/key is known not to be there. */
bool store_lacks(struct xs_handle *store, const char *folder, const char *key);

/* Whether a decimal number stands at folder/key, nothing else, and is not above most. */
bool store_number(struct xs_handle *store, const char *folder, const char *key, uint32_t most,
                  uint32_t *number);

/* The number 1 at folder/key; anything else is no. */
bool store_flag(struct xs_handle *store, const char *folder, const char *key);

enum device_state store_state(struct xs_handle *store, const char *folder);

/*
 * Writes a number, but only into a device's folder that still exists: a write alone would
 * bring back the folder of a device that was taken away.
 */
bool store_write(struct xs_handle *store, const char *folder, const char *key, uint32_t number);

#endif
