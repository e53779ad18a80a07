/* Reads the NOTIFY frames of standard input, and prints for each the ACK in hex that sets a variable for each argument. They are
 * named slot0, delay0, slot1, delay1, and so on, and stand in the arguments' own order with the arguments' own values. Where a frame
 * is cut or refused, or its ACK is, the last line says so, and the status is 1. */
#include <inttypes.h>
#include <stdio.h>

#include "spop_build.h"

/* A record takes two bytes of its frame or more, so there are at most 8192, and four digits count them. */
enum { LIMIT = SPOP_AGREED_FRAME, MOST = LIMIT / 2, DIGITS = 4 };

/* How many arguments of the frame before this one have its key. */
static unsigned met_before(const struct spop_walk *argument)
{
    struct spop_walk w = spop_walk_over(argument->frame);
    unsigned count = 0;

    while (spop_next_argument(&w) && w.index < argument->index)
        count += spop_bytes_equal(w.key, argument->key);
    return count;
}

/* Prints the ACK. */
static uint64_t answer(const struct spop_frame *frame, uint64_t *at)
{
    static uint8_t pool[LIMIT + MOST * DIGITS], name[LIMIT + DIGITS + 1], out[LIMIT + 4];
    static struct spop_action actions[MOST];
    struct spop_walk w = spop_walk_over(frame);
    struct spop_builder b;
    uint64_t number;

    spop_builder_init(&b, spop_room_of(pool, sizeof pool));
    spop_lend_actions(&b, actions, MOST);
    while (spop_next_argument(&w)) {
        int digits = snprintf((char *)name + w.key.len, DIGITS + 1, "%u", met_before(&w));

        memcpy(name, w.key.start, w.key.len);
        spop_set_var(&b, SPOP_SCOPE_TRANSACTION, spop_bytes_of(name, w.key.len + (size_t)digits), w.value);
    }
    number = spop_build_ack(&b, spop_head_ids(&frame->head), spop_room_of(out, sizeof out), LIMIT, at);
    if (number != SPOP_DONE)
        return number;
    for (uint64_t i = 0; i < *at; i++)
        printf("%02x", out[i]);
    printf("\n");
    return SPOP_DONE;
}

int main(void)
{
    static struct spop_message messages[MOST];
    static struct spop_pair pairs[MOST];
    static uint8_t input[LIMIT + 4];
    struct spop_frame frame;
    size_t len = 0, more;
    uint64_t number, at;

    spop_frame_init(&frame, messages, MOST, pairs, MOST);
    while ((number = spop_frame_read(&frame, spop_bytes_of(input, len), LIMIT, &at)) <= SPOP_WAIT) {
        if (number == SPOP_DONE) {
            if (frame.head.type == SPOP_NOTIFY && (number = answer(&frame, &at)) != SPOP_DONE)
                break;
            len = 0;
        } else if ((more = fread(input + len, 1, at, stdin)) == at) {
            len += more;                        /* what was missing is there */
        } else if (ferror(stdin)) {
            perror("standard input");
            return 1;
        } else if (len + more == 0) {
            return 0;                           /* the end, and no frame is begun */
        } else {
            printf("not whole: bytes missing: %" PRIu64 "\n", at - more);
            return 1;
        }
    }
    printf("refused: %" PRIu64 " at %" PRIu64 ": %s\n", number, at, spop_refusal_text(number));
    return 1;
}
