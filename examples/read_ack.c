/* Reads the ACK that an agent sent, and prints its actions; then the same with room for one action, which is refused and changes
 * nothing, and with a scope that there is not. */
#include <inttypes.h>
#include <stdio.h>
#include <string.h>

#include "spop.h"

enum { ACTIONS = 8 };

/* The ACK that examples/agent_answer.c writes: two slots and their residual delays, set for the transaction. */
static uint8_t ack[] =
    "\0\0\0\x3f" "\x67" "\0\0\0\1" "\1\1"
    "\1\3\2\5slot0" "\3\3"
    "\1\3\2\6delay0" "\4\xf2\x3f"
    "\1\3\2\5slot1" "\3\x11"
    "\1\3\2\6delay1" "\4\xf6\xc3\xfe\xfe\xfe\xfe\xfe\xfe\xfe\x0e";

/* The number whose 64 bits in two's complement these are. */
static int64_t signed_number(uint64_t bits)
{
    int64_t n;

    memcpy(&n, &bits, sizeof n);
    return n;
}

static void show(uint32_t room)
{
    struct spop_action actions[ACTIONS];
    struct spop_agent_head head;
    struct spop_bytes input = spop_bytes_of(ack, sizeof ack - 1);
    uint64_t at;
    uint64_t number = spop_get_agent_frame(input, SPOP_AGREED_FRAME, NULL, 0, actions, room, &head, &at);

    if (number != SPOP_DONE) {
        printf("%" PRIu64 " at %" PRIu64 ": %s\n", number, at, spop_refusal_text(number));
        return;
    }
    printf("stream %" PRIu64 " frame %" PRIu64 " actions %" PRIu64 "\n", head.stream_id, head.frame_id, head.action_count);
    for (uint64_t i = 0; i < head.action_count; i++) {
        const struct spop_action *action = &actions[i];
        struct spop_bytes name = spop_bytes_at(input, action->name_start, action->name_len);

        printf("%s %.*s", action->action == SPOP_SET_VAR ? "set" : "unset", (int)name.len, (const char *)name.start);
        if (action->action == SPOP_SET_VAR)
            printf(" to %" PRId64, signed_number(action->a));
        printf(", scope %" PRIu64 "\n", action->scope);
    }
}

int main(void)
{
    show(ACTIONS);
    show(1);
    ack[13] = 5;
    show(ACTIONS);
    return 0;
}
