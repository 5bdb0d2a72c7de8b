#include "agree.h"

#include <stdio.h>
#include <string.h>

#include "measure.h"

static bool complain(const struct row *row, uint32_t call, const char *what)
{
    fprintf(stderr, "bench: %s: call %u: not as it must be: %s\n", row->name, (unsigned)call,
            what);
    return false;
}

static bool frames_agree(const struct scene scenes[2])
{
    return memcmp(scenes[0].frame, scenes[1].frame, SCENE_FRAME) == 0;
}

static bool windows_agree(const struct scene scenes[2])
{
    return memcmp(scenes[0].window, scenes[1].window, sizeof scenes[0].window) == 0;
}

static bool words_agree(const struct queue queues[2])
{
    const struct queue *a = &queues[0], *b = &queues[1];

    return a->counter == b->counter && a->replied == b->replied && a->halted == b->halted &&
           memcmp(&a->report, &b->report, sizeof a->report) == 0 &&
           memcmp(&a->finished, &b->finished, sizeof a->finished) == 0;
}

/* What the two have left differently, or NULL. The window is compared at the end. */
static const char *difference(const struct scene scenes[2], const struct queue queues[2])
{
    if (!words_agree(queues))
        return "counters, mark or report";
    if (memcmp(scenes[0].rings[0], scenes[1].rings[0], sizeof scenes[0].rings[0]) != 0)
        return "ring page";
    if (memcmp(scenes[0].held[0], scenes[1].held[0], sizeof scenes[0].held[0]) != 0)
        return "records";
    if (!frames_agree(scenes))
        return "frame buffer";
    return NULL;
}

/* The answer in the report of the last call. */
static uint32_t told(const struct row *row, const struct queue *queue)
{
    bool finishes = row->way == LEAVE ||
                    (row->way == TRANSMIT && row->answer == TOLLMEANDER_DONE);

    return finishes ? queue->finished.answer : queue->report.answer;
}

/* Whether as many slots are held after a call as its row says. */
static bool holds_as_told(const struct row *row, const struct queue *queue)
{
    uint32_t held_slots = queue->counter - queue->replied;

    if (row->way == LEAVE)
        return held_slots == 0;
    return row->way != TRANSMIT || held_slots == row->held;
}

static bool calls_agree(struct scene scenes[2])
{
    const struct row *row = scenes[0].row;
    struct queue queues[2] = { queue_on(&scenes[0], 0), queue_on(&scenes[1], 0) };

    for (uint32_t call = 0; call < scenes[0].calls; call++) {
        const char *what;

        for (int i = 0; i < 2; i++) {
            uint32_t answer = make_call(&scenes[i], &calls_of[i], &queues[i]);

            if (answer != row->answer || told(row, &queues[i]) != answer)
                return complain(row, call, "answer");
            if (!holds_as_told(row, &queues[i]))
                return complain(row, call, "slots held");
        }
        what = difference(scenes, queues);
        if (what != NULL)
            return complain(row, call, what);
    }
    return true;
}

bool agree(struct scene scenes[2], const struct row *row)
{
    for (int i = 0; i < 2; i++) {
        scene_make(&scenes[i], row, 0);
        scene_write(&scenes[i]);
    }
    if (!calls_agree(scenes))
        return false;
    if (!windows_agree(scenes))
        return complain(row, scenes[0].calls, "window");

    scene_write(&scenes[1]);
    scene_copy(&scenes[1]);
    if (!windows_agree(scenes) || !frames_agree(scenes))
        return complain(row, scenes[0].calls, "copies");
    return true;
}
