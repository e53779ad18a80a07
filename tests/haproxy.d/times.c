/* How long an agent takes for a NOTIFY: from the reading of the whole frame to its ACK in the output. Linked with the agent by
 *
 *     -Wl,--wrap=spop_read_frame -Wl,--wrap=spop_write_actions
 *
 * it stands between the agent and these two calls, so that the agent needs no clock. Where TIMES names a file in the environment,
 * that has a line when the agent has ended: how many frames were answered, and the median and 99th percentile of their times. */
#define _GNU_SOURCE 1
#include <inttypes.h>
#include <stdio.h>
#include <stdlib.h>
#include <time.h>

#include "spop.h"

/* How many times are told apart, and by how many nanoseconds. Longer ones count as the last. */
enum { STEPS = 100000, STEP = 10 };

static uint64_t begun, answered, times[STEPS];

extern __typeof__(spop_read_frame) __real_spop_read_frame, __wrap_spop_read_frame;
extern __typeof__(spop_write_actions) __real_spop_write_actions, __wrap_spop_write_actions;

/* Nanoseconds. */
static uint64_t now(void)
{
    struct timespec t;

    clock_gettime(CLOCK_MONOTONIC, &t);
    return (uint64_t)t.tv_sec * 1000000000 + (uint64_t)t.tv_nsec;
}

/* The last reading before an ACK is that of its NOTIFY. */
uint64_t __wrap_spop_read_frame(const uint8_t *input, size_t input_len, uint32_t limit, uint64_t *messages, size_t messages_len,
                                uint64_t *pairs, size_t pairs_len, uint64_t head[6], uint64_t *at)
{
    begun = now();
    return __real_spop_read_frame(input, input_len, limit, messages, messages_len, pairs, pairs_len, head, at);
}

uint64_t __wrap_spop_write_actions(bool fin, bool abort, uint64_t stream_id, uint64_t frame_id, uint32_t limit,
                                   const uint8_t *buffer, size_t buffer_len, const uint64_t *actions, size_t actions_len,
                                   uint64_t action_count, uint8_t *out, size_t out_len, uint64_t *at)
{
    uint64_t number = __real_spop_write_actions(fin, abort, stream_id, frame_id, limit, buffer, buffer_len, actions, actions_len,
                                                action_count, out, out_len, at);
    uint64_t step = (now() - begun) / STEP;

    if (number == SPOP_DONE) {
        times[step < STEPS ? step : STEPS - 1]++;
        answered++;
    }
    return number;
}

/* The time within which so many of a hundred frames were answered. */
static uint64_t time_of(unsigned percent)
{
    uint64_t met = 0, step = 0;

    while (step < STEPS - 1 && (met += times[step]) * 100 < answered * percent)
        step++;
    return (step + 1) * STEP;
}

/* So that its pages are there, and the agent's memory does not grow by them later. */
__attribute__((constructor)) static void begin(void)
{
    for (size_t step = 0; step < STEPS; step++)
        ((volatile uint64_t *)times)[step] = 0;
}

__attribute__((destructor)) static void end(void)
{
    const char *name = getenv("TIMES");
    FILE *file = name != NULL ? fopen(name, "w") : NULL;

    if (file == NULL)
        return;
    fprintf(file, "%" PRIu64 " frames, median %" PRIu64 " ns, 99th percentile %" PRIu64 " ns\n", answered, time_of(50), time_of(99));
    fclose(file);
}
