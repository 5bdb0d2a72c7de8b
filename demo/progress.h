/* Tells a person at the terminal how far a long run has come. */
#ifndef PROGRESS_H
#define PROGRESS_H

#include <stdbool.h>
#include <stdint.h>

struct progress {
    double start;
    double next;    /* when to speak next */
    bool wanted;    /* whether there is a terminal */
    bool spoken;
};

void progress_start(struct progress *progress);

/* Speaks if it is time to: this much of all is done. */
void progress_tell(struct progress *progress, uint64_t done, uint64_t all);

/* Clears the line; the seconds since the start. */
double progress_end(struct progress *progress);

#endif
