/* Arguments of the threaded tests: PACKETS [SEED [steps]]. */
#ifndef RUN_OPTIONS_H
#define RUN_OPTIONS_H

#include <stdbool.h>
#include <stdint.h>
#include <stdlib.h>
#include <string.h>

struct run_options {
    uint64_t packets;
    uint64_t seed;
    bool in_steps;      /* the host calls in steps, and maps pages on demand */
};

static inline struct run_options run_options_read(int argc, char **argv)
{
    struct run_options options = { .packets = 100000, .seed = 1, .in_steps = false };

    if (argc > 1)
        options.packets = strtoull(argv[1], NULL, 10);
    if (argc > 2)
        options.seed = strtoull(argv[2], NULL, 10);
    if (argc > 3)
        options.in_steps = strcmp(argv[3], "steps") == 0;
    return options;
}

#endif
