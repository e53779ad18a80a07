/* Reads the NOTIFY of an upload into a table of pair records, and prints its slots and their residual delays; then the same with
 * room for three records, which is refused and changes none. */
#include <inttypes.h>
#include <stdbool.h>
#include <stdio.h>
#include <string.h>

#include "spop.h"

enum { MESSAGES = 4, PAIRS = 16 };

/* What spop_read_frame_records fills in. */
struct frame {
    uint64_t head[6];    /* type, flags, stream id, frame id, message count, pair count */
    uint64_t messages[SPOP_MESSAGE_WIDTH * MESSAGES];
    struct spop_pair pairs[PAIRS];
};

static uint64_t read_frame(const uint8_t *bytes, size_t length, size_t room, struct frame *f, uint64_t *at)
{
    return spop_read_frame_records(bytes, length, SPOP_AGREED_FRAME, f->messages, SPOP_MESSAGE_WIDTH * MESSAGES, f->pairs, room,
                                   f->head, at);
}

/* Starts count from the frame's first byte. */
static bool has_key(const uint8_t *bytes, const struct spop_pair *pair, const char *key)
{
    return pair->key_len == strlen(key) && memcmp(bytes + pair->key_start, key, pair->key_len) == 0;
}

/* The number whose 64 bits in two's complement these are. */
static int64_t signed_number(uint64_t bits)
{
    int64_t n;

    memcpy(&n, &bits, sizeof n);
    return n;
}

/* A message's arguments stand in the order of the bytes, so a delay belongs to the slot before it. */
static void print_delays(const uint8_t *bytes, const uint64_t *message, const struct spop_pair *pairs)
{
    const struct spop_pair *first = pairs + message[2], *slot = NULL;

    for (const struct spop_pair *pair = first; pair < first + message[3]; pair++) {
        if (pair->kind == SPOP_KIND_U32 && has_key(bytes, pair, "slot"))
            slot = pair;
        else if (slot != NULL && pair->kind == SPOP_KIND_I64 && has_key(bytes, pair, "delay"))
            printf("slot %" PRIu64 ": %" PRId64 " ps\n", slot->a, signed_number(pair->a));
    }
}

static void show(const uint8_t *bytes, size_t length)
{
    struct frame f;
    uint64_t at;
    uint64_t number = read_frame(bytes, length, PAIRS, &f, &at);

    if (number != SPOP_DONE) {
        printf("answered %" PRIu64 " with %" PRIu64 "\n", number, at);
        return;
    }
    printf("%" PRIu64 " bytes, %" PRIu64 " pairs\n", at, f.head[5]);
    for (uint64_t i = 0; i < f.head[4]; i++)
        print_delays(bytes, f.messages + SPOP_MESSAGE_WIDTH * i, f.pairs);
}

/* Shows the refusal's number and place, and whether anything that was lent has changed. */
static void show_refusal(const uint8_t *bytes, size_t length, size_t room)
{
    struct frame f, before;
    uint64_t number, at;

    memset(&f, 0xaa, sizeof f);
    memcpy(&before, &f, sizeof f);
    number = read_frame(bytes, length, room, &f, &at);
    printf("answered %" PRIu64 " at %" PRIu64 ", records %s\n", number, at,
           memcmp(&f, &before, sizeof f) == 0 ? "untouched" : "changed");
}

int main(void)
{
    static const uint8_t upload[] =
        "\0\0\0\x37\3\0\0\0\1\1\1" "\6upload\4"
        "\4slot\3\3" "\5delay\4\xf2\x3f"
        "\4slot\3\x11" "\5delay\4\xf6\xc3\xfe\xfe\xfe\xfe\xfe\xfe\xfe\x0e";

    printf("room for %d records\n", PAIRS);
    show(upload, sizeof upload - 1);
    printf("room for 3 records\n");
    show_refusal(upload, sizeof upload - 1, 3);
    return 0;
}
