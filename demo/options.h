/* The demo's command line. */
#ifndef OPTIONS_H
#define OPTIONS_H

#include <stdbool.h>
#include <stdint.h>

struct options {
    uint64_t packets;   /* that each guest sends */
    uint64_t seed;
    bool help;
};

/* Reads the command line; false, with a message, if it is bad. */
bool options_read(struct options *options, int argc, char **argv);

/* Prints what the demo does and takes. */
void options_print_help(void);

#endif
