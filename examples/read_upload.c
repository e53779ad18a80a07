/* Reads frames from standard input to its end, and prints each message with its arguments in order. Where a frame is cut or
 * refused, the last line says so, and the status is 1. */
#include <inttypes.h>
#include <stdio.h>

#include "spop_build.h"

enum { LIMIT = SPOP_AGREED_FRAME };

/* Bytes from anywhere as UTF-8: what is ill-formed becomes U+FFFD, which takes at most three bytes for one. */
static void print_text(struct spop_bytes bytes)
{
    static uint8_t text[3 * LIMIT];
    uint64_t len;

    if (spop_put_lossy_text(bytes, spop_room_of(text, sizeof text), &len) == SPOP_DONE)
        fwrite(text, 1, len, stdout);
}

static void print_ipv4(const uint8_t *address)
{
    printf("%u.%u.%u.%u", address[0], address[1], address[2], address[3]);
}

/* As RFC 5952 has it: the first of the longest runs of two zero groups or more is left out, and an IPv4 address that is mapped
 * stays readable. */
static void print_ipv6(const uint8_t *address)
{
    static const uint8_t mapped[12] = {0, 0, 0, 0, 0, 0, 0, 0, 0, 0, 0xff, 0xff};
    unsigned groups[8];
    int start = -1, len = 1;

    if (memcmp(address, mapped, sizeof mapped) == 0) {
        printf("::ffff:");
        print_ipv4(address + 12);
        return;
    }
    for (int i = 0; i < 8; i++)
        groups[i] = 256u * address[2 * i] + address[2 * i + 1];
    for (int i = 0; i < 8; i++) {
        int zeros = 0;

        while (i + zeros < 8 && groups[i + zeros] == 0)
            zeros++;
        if (zeros > len) {
            start = i;
            len = zeros;
        }
    }
    for (int i = 0; i < 8; i++) {
        if (i == start) {
            printf("::");
            i += len - 1;
        } else {
            printf("%s%x", i > 0 && i != start + len ? ":" : "", groups[i]);
        }
    }
}

static void print_value(struct spop_data value)
{
    int32_t i32;
    int64_t i64;

    switch (value.kind) {
    case SPOP_KIND_NULL: printf("null"); break;
    case SPOP_KIND_BOOL: printf("%s", value.number != 0 ? "true" : "false"); break;
    case SPOP_KIND_I32: spop_as_i32(value, &i32); printf("%" PRId32, i32); break;
    case SPOP_KIND_I64: spop_as_i64(value, &i64); printf("%" PRId64, i64); break;
    case SPOP_KIND_U32: case SPOP_KIND_U64: printf("%" PRIu64, value.number); break;
    case SPOP_KIND_IPV4: print_ipv4(value.bytes.start); break;
    case SPOP_KIND_IPV6: print_ipv6(value.bytes.start); break;
    case SPOP_KIND_STRING: print_text(value.bytes); break;
    default:
        for (size_t i = 0; i < value.bytes.len; i++)
            printf("%02x", value.bytes.start[i]);
    }
}

static void print_frame(const struct spop_frame *frame)
{
    struct spop_walk w = spop_walk_over(frame);

    while (spop_next_message(&w)) {
        print_text(w.name);
        printf("\n");
        while (spop_next_argument(&w)) {
            printf("  ");
            print_text(w.key);
            printf(" ");
            print_value(w.value);
            printf("\n");
        }
    }
}

int main(void)
{
    /* A record takes two bytes of its frame or more, so there is room for all. */
    static struct spop_message messages[LIMIT / 2];
    static struct spop_pair pairs[LIMIT / 2];
    static uint8_t input[LIMIT + 4];
    struct spop_frame frame;
    size_t len = 0, more;
    uint64_t number, at;

    spop_frame_init(&frame, messages, SPOP_COUNT(messages), pairs, SPOP_COUNT(pairs));
    while ((number = spop_frame_read(&frame, spop_bytes_of(input, len), LIMIT, &at)) <= SPOP_WAIT) {
        if (number == SPOP_DONE) {
            print_frame(&frame);
            len = 0;
        } else if ((more = fread(input + len, 1, at, stdin)) == at) {
            len += more;                        /* what was missing is there */
        } else if (ferror(stdin)) {
            perror("standard input");
            return 1;
        } else if (len + more == 0) {
            return 0;                           /* the end, and no frame is begun */
        } else {
            printf("not whole: bytes missing: %" PRIu64 "\n", at - more);
            return 1;
        }
    }
    printf("refused: %" PRIu64 " at %" PRIu64 ": %s\n", number, at, spop_refusal_text(number));
    return 1;
}
