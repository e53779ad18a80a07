/* Writes the NOTIFY of an upload, two slots and their residual delays, and prints it in hex. */
#include <inttypes.h>
#include <stdio.h>

#include "spop_build.h"

int main(void)
{
    uint8_t pool[64], out[256];
    struct spop_message messages[1];
    struct spop_pair pairs[4];
    struct spop_builder b;
    uint64_t at, number;

    spop_builder_init(&b, spop_room_of(pool, sizeof pool));
    spop_lend_messages(&b, messages, SPOP_COUNT(messages));
    spop_lend_pairs(&b, pairs, SPOP_COUNT(pairs));

    spop_add_message(&b, "upload");
    spop_add_u32(&b, "slot", 3);
    spop_add_i64(&b, "delay", 1250);
    spop_add_u32(&b, "slot", 17);
    spop_add_i64(&b, "delay", -730);

    number = spop_build_notify(&b, spop_ids_of(1, 1), spop_room_of(out, sizeof out), SPOP_AGREED_FRAME, &at);
    if (number != SPOP_DONE) {
        printf("refused: %" PRIu64 " at %" PRIu64 ": %s\n", number, at, spop_refusal_text(number));
        return 1;
    }
    for (uint64_t i = 0; i < at; i++)
        printf("%02x", out[i]);
    printf("\n");
    return 0;
}
