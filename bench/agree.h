/*
 * Holds the library and plain C against each other before they are timed.
 */
#ifndef BENCH_AGREE_H
#define BENCH_AGREE_H

#include <stdbool.h>

#include "scene.h"

/*
 * Makes all calls on a ring of a row by both, each in a scene of its own. Whether
 * every call leaves the same, and the copies that stand for the row are those
 * that the calls make; if not, says so on stderr.
 */
bool agree(struct scene scenes[2], const struct row *row);

#endif
