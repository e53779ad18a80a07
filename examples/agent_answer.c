/* Writes what an agent answers, an AGENT-HELLO and the ACK that sets four variables for an upload, and prints each in hex. */
#include <inttypes.h>
#include <stdio.h>

#include "spop_build.h"

static int show(uint64_t number, const uint8_t *out, uint64_t at)
{
    if (number != SPOP_DONE) {
        printf("refused: %" PRIu64 " at %" PRIu64 ": %s\n", number, at, spop_refusal_text(number));
        return 1;
    }
    for (uint64_t i = 0; i < at; i++)
        printf("%02x", out[i]);
    printf("\n");
    return 0;
}

static int hello(void)
{
    uint8_t pool[64], out[256];
    struct spop_pair pairs[3];
    struct spop_builder b;
    uint64_t at, number;

    spop_builder_init(&b, spop_room_of(pool, sizeof pool));
    spop_lend_pairs(&b, pairs, SPOP_COUNT(pairs));
    spop_add_string(&b, "version", "2.0");
    spop_add_u32(&b, "max-frame-size", SPOP_AGREED_FRAME);
    spop_add_string(&b, "capabilities", "");
    number = spop_build_kv(&b, SPOP_AGENT_HELLO, spop_room_of(out, sizeof out), SPOP_AGREED_FRAME, &at);
    return show(number, out, at);
}

static int ack(void)
{
    uint8_t pool[64], out[256];
    struct spop_action actions[4];
    struct spop_builder b;
    uint64_t at, number;

    spop_builder_init(&b, spop_room_of(pool, sizeof pool));
    spop_lend_actions(&b, actions, SPOP_COUNT(actions));
    spop_set_u32(&b, SPOP_SCOPE_TRANSACTION, "slot0", 3);
    spop_set_i64(&b, SPOP_SCOPE_TRANSACTION, "delay0", 1250);
    spop_set_u32(&b, SPOP_SCOPE_TRANSACTION, "slot1", 17);
    spop_set_i64(&b, SPOP_SCOPE_TRANSACTION, "delay1", -730);
    number = spop_build_ack(&b, spop_ids_of(1, 1), spop_room_of(out, sizeof out), SPOP_AGREED_FRAME, &at);
    return show(number, out, at);
}

int main(void)
{
    return hello() != 0 || ack() != 0;
}
