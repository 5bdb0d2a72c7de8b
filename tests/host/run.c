#include "run.h"

#include <inttypes.h>
#include <stdio.h>

#include "run_options.h"

static struct frame_pool pool;

void run_open(struct run *run, int argc, char **argv, bool plain)
{
    struct run_options options = run_options_read(argc, argv);
    struct guest_memory memory;

    frame_pool_fill(&pool, options.seed);
    run->traffic = (struct traffic){
        .pool = &pool, .seed = options.seed, .packets = options.packets, .plain = plain
    };
    guest_pages_open(&run->pages, plain);
    memory = guest_pages_memory(&run->pages);
    channel_open(&run->to_guest);
    host_open(&run->host, &memory, (uint32_t)FIRST_COUNTER, options.in_steps);
    run->rng = rng_of(options.seed, UINT64_MAX);
}

uint32_t run_pick(struct run *run, uint32_t most)
{
    return 1 + rng_below(&run->rng, most);
}

bool run_is_done(struct run *run, const struct tollmeander_report *report, bool may_sleep)
{
    if (report->notify)
        channel_notify(&run->to_guest);
    return host_is_done(&run->host, report->answer, may_sleep);
}

static void finish_confirmed(struct run *run)
{
    if (host_finish_confirmed(&run->host))
        channel_notify(&run->to_guest);
}

void run_take(struct run *run, struct device *device, bool (*may_sleep)(uint32_t answer),
              int32_t (*status_of)(uint64_t number))
{
    static uint8_t frame[TOLLMEANDER_FRAME_MAX];

    while (device->frames < run->traffic.packets && host_goes_on(&run->host)) {
        struct tollmeander_report report;
        uint32_t answer = host_take(&run->host, frame, sizeof frame, &report);

        if (run_is_done(run, &report, may_sleep(answer))) {
            host_hand_over(&run->host, &report, status_of(device->frames));
            device_accept(device, frame, &report);
        }
        finish_confirmed(run);
    }
    while (host_holds(&run->host) && host_goes_on(&run->host)) {
        channel_sleep(&run->host.events);
        finish_confirmed(run);
    }
    device_thread_close(&run->host.device);
}

bool run_ended_well(const struct run *run)
{
    const struct host_side *host = &run->host;

    printf("%" PRIu64 " unexpected answers to the host; guest slept %" PRIu64 " times, host %"
           PRIu64 ", of these %" PRIu64 " for records; %" PRIu64 " finished behind others; %s\n",
           host->unexpected, run->to_guest.sleeps, host->events.sleeps, host->waits, host->behind,
           run->to_guest.stalled ? "the guest stalled" :
           host->events.stalled ? "the host stalled" : "no stall");
    return host_goes_on(host) && !run->to_guest.stalled;
}
