/* Reads the upload at the front of standard input, and writes the ACK that sets a variable for each argument, in their order. */
#include <inttypes.h>
#include <stdio.h>

#include "spop_build.h"

enum { LIMIT = SPOP_AGREED_FRAME, MOST = 64, DIGITS = 2 };

/* A variable of its own for each argument, so that none overwrites another: of slot, delay, slot, delay these are slot0, delay0,
 * slot1, delay1. The number is how many arguments before it have its key. */
static struct spop_bytes name_of(const struct spop_walk *argument)
{
    static uint8_t name[LIMIT + DIGITS + 1];
    struct spop_walk w = spop_walk_over(argument->frame);
    size_t len = argument->key.len;
    unsigned before = 0;

    while (spop_next_argument(&w) && w.index < argument->index)
        before += spop_bytes_equal(w.key, argument->key);
    memcpy(name, argument->key.start, len);
    return spop_bytes_of(name, len + (size_t)snprintf((char *)name + len, DIGITS + 1, "%u", before));
}

int main(void)
{
    static uint8_t in[LIMIT + 4], pool[LIMIT + MOST * DIGITS], out[LIMIT + 4];
    struct spop_message messages[8];
    struct spop_pair pairs[MOST];
    struct spop_action actions[MOST];
    struct spop_bytes input = spop_bytes_of(in, fread(in, 1, sizeof in, stdin));
    struct spop_frame frame;
    struct spop_builder b;
    struct spop_walk w;
    uint64_t at, number;

    spop_frame_init(&frame, messages, SPOP_COUNT(messages), pairs, SPOP_COUNT(pairs));
    spop_builder_init(&b, spop_room_of(pool, sizeof pool));
    spop_lend_actions(&b, actions, SPOP_COUNT(actions));
    number = spop_frame_read(&frame, input, LIMIT, &at);
    if (number == SPOP_DONE && frame.head.type != SPOP_NOTIFY) {
        fprintf(stderr, "no NOTIFY, so not answered\n");
        return 1;
    }
    if (number == SPOP_DONE) {
        for (w = spop_walk_over(&frame); spop_next_argument(&w);)
            spop_set_var(&b, SPOP_SCOPE_TRANSACTION, name_of(&w), w.value);
        number = spop_build_ack(&b, spop_head_ids(&frame.head), spop_room_of(out, sizeof out), LIMIT, &at);
    }
    if (number != SPOP_DONE) {
        fprintf(stderr, "refused: %" PRIu64 " at %" PRIu64 ": %s\n", number, at, spop_refusal_text(number));
        return 1;
    }
    fwrite(out, 1, at, stdout);
    return 0;
}
