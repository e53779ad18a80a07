/* Words of the helpers that changed places. Without EXCHANGED this compiles; with each number of it a compiler has to refuse it, or
 * to warn, where the calls of numbers and lengths would take it in silence. */
#include "spop_build.h"

void exchanged(struct spop_row *rows, struct spop_message *messages, struct spop_pair *pairs, struct spop_action *actions,
               struct spop_bytes input, struct spop_room out, struct spop_head *head, struct spop_counts *counts, uint64_t *at);

void exchanged(struct spop_row *rows, struct spop_message *messages, struct spop_pair *pairs, struct spop_action *actions,
               struct spop_bytes input, struct spop_room out, struct spop_head *head, struct spop_counts *counts, uint64_t *at)
{
#if !defined EXCHANGED
    spop_get_frame(input, SPOP_AGREED_FRAME, messages, 1, pairs, 4, head, at);
    spop_get_frames(input, SPOP_AGREED_FRAME, rows, 2, messages, 1, pairs, 4, counts, at);
    spop_put_notify(spop_ids_of(1, 1), input, messages, 1, pairs, 4, out, SPOP_AGREED_FRAME, at);
    spop_put_ack(spop_ids_of(1, 1), input, actions, 1, out, SPOP_AGREED_FRAME, at);
#elif EXCHANGED == 1    /* the tables */
    spop_get_frame(input, SPOP_AGREED_FRAME, pairs, 4, messages, 1, head, at);
#elif EXCHANGED == 2    /* the input and the limit */
    spop_get_frame(SPOP_AGREED_FRAME, input, messages, 1, pairs, 4, head, at);
#elif EXCHANGED == 3    /* the head and *at */
    spop_get_frame(input, SPOP_AGREED_FRAME, messages, 1, pairs, 4, at, head);
#elif EXCHANGED == 4    /* what is read and what is written */
    spop_put_notify(spop_ids_of(1, 1), out, messages, 1, pairs, 4, input, SPOP_AGREED_FRAME, at);
#elif EXCHANGED == 5    /* a table and its count */
    spop_put_ack(spop_ids_of(1, 1), input, 1, actions, out, SPOP_AGREED_FRAME, at);
#elif EXCHANGED == 6    /* pairs for actions */
    spop_put_ack(spop_ids_of(1, 1), input, pairs, 1, out, SPOP_AGREED_FRAME, at);
#elif EXCHANGED == 7    /* the ids and the limit */
    spop_put_ack(SPOP_AGREED_FRAME, input, actions, 1, out, spop_ids_of(1, 1), at);
#elif EXCHANGED == 8    /* the count of what is no array */
    spop_get_frame(input, SPOP_AGREED_FRAME, messages, SPOP_COUNT(messages), pairs, 4, head, at);
#elif EXCHANGED == 9    /* the rows and the messages */
    spop_get_frames(input, SPOP_AGREED_FRAME, messages, 1, rows, 2, pairs, 4, counts, at);
#elif EXCHANGED == 10   /* the counts and *at */
    spop_get_frames(input, SPOP_AGREED_FRAME, rows, 2, messages, 1, pairs, 4, at, counts);
#else
    /* Nothing is exchanged, so this compiles: it is how the last number is found. */
#endif
    (void)rows, (void)messages, (void)pairs, (void)actions, (void)input, (void)out, (void)head, (void)counts, (void)at;
}
