#include "store.h"

#include <errno.h>
#include <stdio.h>
#include <stdlib.h>
#include <string.h>

static bool join(char path[STORE_PATH], const char *folder, const char *key)
{
    int length = snprintf(path, STORE_PATH, "%s/%s", folder, key);

    return length > 0 && length < STORE_PATH;
}

char *store_text(struct xs_handle *store, const char *folder, const char *key)
{
    char path[STORE_PATH];
    unsigned length;

    if (join(path, folder, key))
        return xs_read(store, XBT_NULL, path, &length);
    errno = ENAMETOOLONG;
    return NULL;
}

bool store_lacks(struct xs_handle *store, const char *folder, const char *key)
{
    char *text = store_text(store, folder, key);
    bool lacks = !text && errno == ENOENT;

    free(text);
    return lacks;
}

bool store_number(struct xs_handle *store, const char *folder, const char *key, uint32_t most,
                  uint32_t *number)
{
    char *text = store_text(store, folder, key), *end = text;
    unsigned long long value = 0;
    bool good = false;

    if (text && *text >= '0' && *text <= '9') {
        errno = 0;
        value = strtoull(text, &end, 10);
        good = errno == 0 && *end == '\0' && value <= most;
    }
    if (good)
        *number = (uint32_t)value;
    free(text);
    return good;
}

bool store_flag(struct xs_handle *store, const char *folder, const char *key)
{
    uint32_t number;

    return store_number(store, folder, key, 1, &number) && number == 1;
}

enum device_state store_state(struct xs_handle *store, const char *folder)
{
    uint32_t state;

    if (store_number(store, folder, "state", STATE_RECONFIGURED, &state))
        return (enum device_state)state;
    return store_lacks(store, folder, "state") ? STATE_MISSING : STATE_NONSENSE;
}

/* One attempt, in a transaction; whether it was written, and whether to try again. */
static bool try_to_write(struct xs_handle *store, const char *exists, const char *path,
                         const char *text, bool *again)
{
    xs_transaction_t change = xs_transaction_start(store);
    unsigned length;
    char *there;
    bool written;

    *again = false;
    if (change == XBT_NULL)
        return false;
    there = xs_read(store, change, exists, &length);
    written = there && xs_write(store, change, path, text, (unsigned)strlen(text));
    free(there);
    if (xs_transaction_end(store, change, !written))
        return written;
    *again = errno == EAGAIN;
    return false;
}

bool store_write(struct xs_handle *store, const char *folder, const char *key, uint32_t number)
{
    char exists[STORE_PATH], path[STORE_PATH], text[16];
    bool written, again;

    if (!join(exists, folder, "frontend") || !join(path, folder, key))
        return false;
    snprintf(text, sizeof text, "%u", (unsigned)number);
    do
        written = try_to_write(store, exists, path, text, &again);
    while (again);
    return written;
}
