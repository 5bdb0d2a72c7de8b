/* Two threads: the guest's, and the host's, which is the first. */
#ifndef THREADS_H
#define THREADS_H

#include <pthread.h>
#include <stdio.h>
#include <stdlib.h>

struct thread_work {
    void (*run)(void);
};

static inline void *thread_run(void *work)
{
    ((const struct thread_work *)work)->run();
    return NULL;
}

/* Runs both sides at once, until both have ended. */
static inline void threads_run(void (*guest)(void), void (*host)(void))
{
    struct thread_work work = { guest };
    pthread_t thread;

    if (pthread_create(&thread, NULL, thread_run, &work) != 0) {
        fputs("cannot start a thread\n", stderr);
        exit(1);
    }
    host();
    pthread_join(thread, NULL);
}

#endif
