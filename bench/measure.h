/*
 * Times rounds of calls.
 */
#ifndef BENCH_MEASURE_H
#define BENCH_MEASURE_H

#include "scene.h"

/* Those who are measured; the last makes the copies and nothing else. */
enum { LIBRARY, PLAIN, MEMCPY, CONTENDERS };

/* Four calls of the header's form. */
struct calls {
    const char *name;
    uint32_t (*take)(uint32_t *, uint32_t *, uint32_t *, uint8_t *, size_t, const uint8_t *,
                     size_t, const uint8_t *, size_t, struct tollmeander_held *, size_t, uint8_t *,
                     size_t, struct tollmeander_report *);
    uint32_t (*finish)(uint32_t, uint32_t *, uint8_t *, size_t, struct tollmeander_held *, size_t,
                       uint32_t, int32_t, struct tollmeander_report *);
    uint32_t (*put)(uint32_t *, uint32_t *, uint8_t *, size_t, const uint8_t *, size_t,
                    uint8_t *, size_t, const uint8_t *, size_t, struct tollmeander_report *);
    uint32_t (*post)(uint32_t, uint8_t *, size_t, const uint8_t *, size_t, uint8_t *, size_t,
                     const uint32_t *, size_t, const uint8_t *, size_t, uint32_t, uint16_t, uint8_t,
                     struct tollmeander_report *);
};

/* Those of the library and of plain C. */
extern const struct calls calls_of[MEMCPY];

/* A queue that calls are made on. */
struct queue {
    uint8_t *ring;
    struct tollmeander_held *held;
    uint32_t counter;           /* slots consumed; by posts, slots posted */
    uint32_t replied;
    uint32_t halted;
    struct tollmeander_report report;
    struct tollmeander_report finished;         /* of a finish */
};

/* Nanoseconds a call, a number to each round. */
struct times {
    double *round;
    size_t count;
    size_t room;
};

/* A row and what was measured of it. */
struct result {
    struct row row;
    struct times times[CONTENDERS];
    double instructions[MEMCPY];        /* a call; 0 if not known */
};

/* Keeps the program on the processor that it is on. */
void stay(void);

/* The queue of a ring of the scene, before the first call. */
struct queue queue_on(struct scene *scene, int ring);

/* Makes one call of the row, which may be a take and a finish; its answer. */
uint32_t make_call(struct scene *scene, const struct calls *calls, struct queue *queue);

/* Makes all calls on a ring. Ends the program if an answer is not the row's. */
void drain_ring(struct scene *scene, int ring, const struct calls *calls);

/*
 * Measures a row for so long, in rounds of all contenders in turn, and adds to its
 * times. With another place the stack and the frame buffer stand elsewhere: on
 * some places a call is slower, and the best time should not hang on that.
 */
void measure(struct scene *scene, struct result *result, unsigned place, double seconds);

double best(const struct times *times);
double median(struct times *times);

#endif
