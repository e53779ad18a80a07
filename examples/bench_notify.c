/* Writes the NOTIFY of an upload, two slots and their residual delays; then the same with the slots exchanged, which is another
 * frame; then one that is refused. */
#include <inttypes.h>
#include <stdio.h>

#include "spop_build.h"

/* What one NOTIFY is made of, with room enough for an upload. */
struct notify {
    uint8_t pool[256];
    struct spop_message messages[4];
    struct spop_pair pairs[16];
    struct spop_builder b;
};

static void begin(struct notify *n)
{
    spop_builder_init(&n->b, spop_room_of(n->pool, sizeof n->pool));
    spop_lend_messages(&n->b, n->messages, SPOP_COUNT(n->messages));
    spop_lend_pairs(&n->b, n->pairs, SPOP_COUNT(n->pairs));
}

/* A slot, by its number in the slot table, and its residual delay in picoseconds. */
static void add_slot(struct spop_builder *b, uint32_t slot, int64_t delay)
{
    spop_add_u32(b, "slot", slot);
    spop_add_i64(b, "delay", delay);
}

static uint64_t write_frame(const struct notify *n, struct spop_room out, uint64_t *at)
{
    return spop_build_notify(&n->b, spop_ids_of(1, 1), out, SPOP_AGREED_FRAME, at);
}

static void show(const struct notify *n)
{
    uint8_t out[SPOP_AGREED_FRAME + 4];
    uint64_t at;
    uint64_t number = write_frame(n, spop_room_of(out, sizeof out), &at);

    if (number != SPOP_DONE) {
        printf("refused: %" PRIu64 " at %" PRIu64 "\n", number, at);
        return;
    }
    printf("%" PRIu64 " bytes: ", at);
    for (uint64_t i = 0; i < at; i++)
        printf("%02x", out[i]);
    printf("\n");
}

/* Shows the refusal's number and place, and whether a byte of the output changed. */
static void show_refusal(const struct notify *n)
{
    uint8_t out[64], before[64];
    uint64_t number, at;

    memset(out, 0xaa, sizeof out);
    memcpy(before, out, sizeof out);
    number = write_frame(n, spop_room_of(out, sizeof out), &at);
    printf("answered %" PRIu64 " at %" PRIu64 ", output %s\n", number, at,
           memcmp(out, before, sizeof out) == 0 ? "untouched" : "changed");
}

int main(void)
{
    struct notify upload, exchanged, gap;

    begin(&upload);
    spop_add_message(&upload.b, "delay-upload");
    add_slot(&upload.b, 3, 1250);
    add_slot(&upload.b, 17, -730);
    printf("slot 3, then slot 17\n");
    show(&upload);

    begin(&exchanged);
    spop_add_message(&exchanged.b, "delay-upload");
    add_slot(&exchanged.b, 17, -730);
    add_slot(&exchanged.b, 3, 1250);
    printf("slot 17, then slot 3\n");
    show(&exchanged);

    /* Two messages, and the second is said to begin one pair late. The number 17 would be in neither. */
    begin(&gap);
    spop_add_message(&gap.b, "delay-upload");
    add_slot(&gap.b, 3, 1250);
    spop_add_message(&gap.b, "delay-upload");
    add_slot(&gap.b, 17, -730);
    gap.messages[1].first_pair += 1;
    gap.messages[1].pair_count -= 1;
    printf("a gap between two messages\n");
    show_refusal(&gap);
    return 0;
}
