#define _GNU_SOURCE
#include "measure.h"

#include <sched.h>
#include <stdio.h>
#include <stdlib.h>
#include <string.h>
#include <time.h>

#include "plain.h"

#define SECOND_NS 1e9
/* What a round takes, about. */
#define ROUND_NS 1e6

enum {
    TRIAL_BATCHES = 5,
    MOST_BATCHES = 100,
    /* From place to place: so that the stack begins anywhere in a cache line, and in a page. */
    STACK_STEP = 256 + 16,
    FIRST_ROOM = 256
};

const struct calls calls_of[MEMCPY] = {
    [LIBRARY] = { "library", tollmeander_transmit_take, tollmeander_transmit_finish,
                  tollmeander_receive_put, tollmeander_transmit_post },
    [PLAIN] = { "plain C", plain_transmit_take, plain_transmit_finish, plain_receive_put,
                plain_transmit_post },
};

void stay(void)
{
    cpu_set_t here;
    int cpu = sched_getcpu();

    if (cpu < 0)
        return;
    CPU_ZERO(&here);
    CPU_SET((size_t)cpu, &here);
    /* Where this is not allowed, the program moves about, and the times scatter more. */
    (void)sched_setaffinity(0, sizeof here, &here);
}

static double now(void)
{
    struct timespec time;

    clock_gettime(CLOCK_MONOTONIC, &time);
    return (double)time.tv_sec * SECOND_NS + (double)time.tv_nsec;
}

struct queue queue_on(struct scene *scene, int ring)
{
    return (struct queue){
        .ring = scene->rings[ring],
        .held = scene->held[ring],
        .counter = scene->counter + scene->row->held,
        .replied = scene->counter,
    };
}

/* Finishes the oldest packet, whose first slot is the next to be replied to. */
static uint32_t make_finish(const struct scene *scene, const struct calls *calls,
                            struct queue *queue)
{
    return calls->finish(queue->counter, &queue->replied, queue->ring, TOLLMEANDER_PAGE_SIZE,
                         queue->held, scene->row->records, queue->replied,
                         TOLLMEANDER_REPLY_OKAY, &queue->finished);
}

static uint32_t make_take(struct scene *scene, const struct calls *calls, struct queue *queue)
{
    uint32_t answer = calls->take(&queue->counter, &queue->replied, &queue->halted, queue->ring,
                                  TOLLMEANDER_PAGE_SIZE, scene->grants, sizeof scene->grants,
                                  scene->window, sizeof scene->window, queue->held,
                                  scene->row->records, scene->frame, scene->frame_len,
                                  &queue->report);

    return answer == TOLLMEANDER_DONE ? make_finish(scene, calls, queue) : answer;
}

/* Lends the records again as they were before the call before. */
static uint32_t make_leave(struct scene *scene, const struct calls *calls, struct queue *queue)
{
    memcpy(queue->held, scene->before, scene->row->held * sizeof scene->before[0]);
    queue->replied = scene->counter;
    return make_finish(scene, calls, queue);
}

static uint32_t make_put(struct scene *scene, const struct calls *calls, struct queue *queue)
{
    return calls->put(&queue->counter, &queue->halted, queue->ring, TOLLMEANDER_PAGE_SIZE,
                      scene->grants, sizeof scene->grants, scene->window, sizeof scene->window,
                      scene->frame, scene->frame_len, &queue->report);
}

/* Posts a frame in pages of its own. No reply is read: the ring is full in the end. */
static uint32_t make_post(struct scene *scene, const struct calls *calls, struct queue *queue)
{
    const struct row *row = scene->row;
    uint32_t answer = calls->post(scene->counter, queue->ring, TOLLMEANDER_PAGE_SIZE, scene->grants,
                                  sizeof scene->grants, scene->window, sizeof scene->window,
                                  scene->references + queue->counter % SCENE_PAGES,
                                  row->data_slots, scene->frame, scene->frame_len, row->extras,
                                  SCENE_GSO_SIZE, SCENE_GSO_TYPE, &queue->report);

    queue->counter += queue->report.slots;
    return answer;
}

uint32_t make_call(struct scene *scene, const struct calls *calls, struct queue *queue)
{
    if (scene->row->way == TRANSMIT)
        return make_take(scene, calls, queue);
    if (scene->row->way == LEAVE)
        return make_leave(scene, calls, queue);
    if (scene->row->way == RECEIVE)
        return make_put(scene, calls, queue);
    return make_post(scene, calls, queue);
}

/* Not inlined: callgrind is told to write its counts down after each call of this function. */
__attribute__((noinline))
void drain_ring(struct scene *scene, int ring, const struct calls *calls)
{
    struct queue queue = queue_on(scene, ring);
    uint32_t answer = scene->row->answer;
    uint32_t wrong = 0;

    for (uint32_t left = scene->calls; left > 0; left--)
        wrong |= make_call(scene, calls, &queue) ^ answer;
    if (wrong == 0)
        return;
    fprintf(stderr, "bench: %s: an answer of %s is not %u\n", scene->row->name, calls->name,
            (unsigned)answer);
    exit(1);
}

/* The time of one batch: all calls on all rings, which are filled before. */
static double time_batch(struct scene *scene, int contender)
{
    double start;

    scene_fill(scene);
    start = now();
    for (int i = 0; i < SCENE_RINGS; i++) {
        if (contender == MEMCPY)
            scene_copy(scene);
        else
            drain_ring(scene, i, &calls_of[contender]);
    }
    return now() - start;
}

static int compare(const void *a, const void *b)
{
    const double *x = a, *y = b;

    return (*x > *y) - (*x < *y);
}

/* The middle one of some numbers, which it sorts. */
static double middle(double *numbers, size_t count)
{
    qsort(numbers, count, sizeof *numbers, compare);
    return numbers[count / 2];
}

/* Batches to a round. */
static unsigned round_batches(struct scene *scene)
{
    double shortest = ROUND_NS;
    unsigned batches;

    for (int i = 0; i < TRIAL_BATCHES; i++) {
        double time = time_batch(scene, PLAIN);

        if (time < shortest)
            shortest = time;
    }
    batches = 1 + (unsigned)(ROUND_NS / shortest);
    return batches < MOST_BATCHES ? batches : MOST_BATCHES;
}

static void add_round(struct times *times, double round)
{
    if (times->count == times->room) {
        times->room = times->room == 0 ? FIRST_ROOM : 2 * times->room;
        times->round = realloc(times->round, times->room * sizeof *times->round);
        if (times->round == NULL) {
            fprintf(stderr, "bench: out of memory\n");
            exit(1);
        }
    }
    times->round[times->count++] = round;
}

/* A round's time is that of its middle batch: in some batches other programs get a turn. */
static void time_round(struct scene *scene, struct result *result, int contender,
                       unsigned batches)
{
    double times[MOST_BATCHES];

    if (contender == MEMCPY && scene->copies == 0)
        return;
    for (unsigned i = 0; i < batches; i++)
        times[i] = time_batch(scene, contender);
    add_round(&result->times[contender],
              middle(times, batches) / (SCENE_RINGS * scene->calls));
}

static void measure_rounds(struct scene *scene, struct result *result, double seconds)
{
    double end = now() + seconds * SECOND_NS;
    unsigned batches = round_batches(scene);

    do {
        /* Each of the two goes before the other as often as after it. */
        time_round(scene, result, LIBRARY, batches);
        time_round(scene, result, PLAIN, batches);
        time_round(scene, result, MEMCPY, batches);
        time_round(scene, result, PLAIN, batches);
        time_round(scene, result, LIBRARY, batches);
    } while (now() < end);
}

void measure(struct scene *scene, struct result *result, unsigned place, double seconds)
{
    volatile char room[1 + place * STACK_STEP];

    room[0] = 0;
    (void)room[0];
    scene_make(scene, &result->row, place);
    measure_rounds(scene, result, seconds);
}

double best(const struct times *times)
{
    double least = times->round[0];

    for (size_t i = 1; i < times->count; i++)
        if (times->round[i] < least)
            least = times->round[i];
    return least;
}

double median(struct times *times)
{
    return middle(times->round, times->count);
}
