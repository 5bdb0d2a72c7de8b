#include "progress.h"

#include <stdio.h>
#include <unistd.h>

#include "clock.h"

static const double first_after = 2.0, then_every = 0.25;

void progress_start(struct progress *progress)
{
    progress->start = clock_seconds();
    progress->next = progress->start + first_after;
    progress->wanted = isatty(STDERR_FILENO) != 0;
    progress->spoken = false;
}

void progress_tell(struct progress *progress, uint64_t done, uint64_t all)
{
    double time;

    if (!progress->wanted)
        return;
    time = clock_seconds();
    if (time < progress->next)
        return;
    progress->next = time + then_every;
    progress->spoken = true;
    fprintf(stderr, "\r%3.0f%% of the packets, %.0f seconds ", 100.0 * (double)done / (double)all,
            time - progress->start);
}

double progress_end(struct progress *progress)
{
    if (progress->spoken)
        fputs("\r                                        \r", stderr);
    return clock_seconds() - progress->start;
}
