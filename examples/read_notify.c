/* Reads NOTIFY frames, one behind the other, from standard input, and prints their messages and arguments in order. Where that is a
 * terminal or has no byte, it reads a frame of its own, an upload of two slots and their residual delays.
 *
 * The status is 0 where all of the input was read and had a NOTIFY in it. At a refusal, or where bytes are missing at the end, it
 * says so, and the status is 1. */
#define _POSIX_C_SOURCE 200112L
#include <inttypes.h>
#include <stdio.h>
#include <unistd.h>

#include "spop_build.h"

enum {
    MESSAGES = 64,         /* the rooms of the tables */
    PAIRS = 256,
    MOST_BYTES = 1 << 20   /* of the input */
};

/* Bytes from anywhere do no harm to a terminal so: what is not plain ASCII is escaped. */
static void print_text(struct spop_bytes text)
{
    putchar('"');
    for (size_t i = 0; i < text.len; i++) {
        uint8_t byte = text.start[i];

        if (byte == '"' || byte == '\\')
            printf("\\%c", byte);
        else if (byte >= 0x20 && byte < 0x7f)
            putchar(byte);
        else
            printf("\\x%02x", byte);
    }
    putchar('"');
}

static void print_hex(struct spop_bytes bytes)
{
    if (bytes.len == 0)
        putchar('-');
    for (size_t i = 0; i < bytes.len; i++)
        printf("%02x", bytes.start[i]);
}

/* A value's kind and what it is; its flags are not printed. */
static void print_value(struct spop_data value)
{
    static const char *const kinds[] = {"null", "bool", "i32", "u32", "i64", "u64", "IPv4", "IPv6", "string", "binary"};
    int32_t i32;
    int64_t i64;

    printf("%s ", kinds[value.kind]);
    switch (value.kind) {
    case SPOP_KIND_NULL: putchar('-'); break;
    case SPOP_KIND_BOOL: printf("%s", value.number == 1 ? "true" : "false"); break;
    case SPOP_KIND_I32: spop_as_i32(value, &i32); printf("%" PRId32, i32); break;
    case SPOP_KIND_I64: spop_as_i64(value, &i64); printf("%" PRId64, i64); break;
    case SPOP_KIND_U32: case SPOP_KIND_U64: printf("%" PRIu64, value.number); break;
    case SPOP_KIND_STRING: print_text(value.bytes); break;
    default: print_hex(value.bytes); break;
    }
}

static void print_notify(const struct spop_frame *frame)
{
    struct spop_walk w = spop_walk_over(frame);

    for (uint64_t i = 0; spop_next_message(&w); i++) {
        printf("message %" PRIu64 " ", i);
        print_text(w.name);
        printf(", %" PRIu64 " arguments\n", frame->messages[i].pair_count);
        while (spop_next_argument(&w)) {
            printf("  ");
            print_text(w.key);
            printf(" ");
            print_value(w.value);
            printf("\n");
        }
    }
}

/* Says what is wrong with a frame. */
static void print_refusal(uint64_t index, uint64_t number, uint64_t at)
{
    fflush(stdout);
    if (number == SPOP_WAIT)
        fprintf(stderr, "frame %" PRIu64 " is not whole, bytes missing: %" PRIu64 "\n", index, at);
    else
        fprintf(stderr, "frame %" PRIu64 " is refused with %" PRIu64 " at %" PRIu64 ": %s\n", index, number, at,
                spop_refusal_text(number));
}

/* Reads frame after frame to the end, and answers the status. */
static int read_all(struct spop_bytes input)
{
    static struct spop_message messages[MESSAGES];
    static struct spop_pair pairs[PAIRS];
    struct spop_frame frame;
    uint64_t found = 0, at;

    spop_frame_init(&frame, messages, MESSAGES, pairs, PAIRS);
    for (uint64_t index = 0; input.len > 0; index++) {
        uint64_t number = spop_frame_read(&frame, input, SPOP_AGREED_FRAME, &at);

        if (number != SPOP_DONE) {
            print_refusal(index, number, at);
            return 1;
        }
        printf("frame %" PRIu64 " type %" PRIu64 " stream %" PRIu64 " id %" PRIu64 ", %" PRIu64 " bytes\n", index, frame.head.type,
               frame.head.stream_id, frame.head.frame_id, at);
        if (frame.head.type == SPOP_NOTIFY) {
            print_notify(&frame);
            found++;
        } else {
            printf("no NOTIFY, so passed over\n");
        }
        input = spop_bytes_behind(input, at);
    }
    if (found == 0) {
        fflush(stdout);
        fprintf(stderr, "there is no NOTIFY in the input\n");
        return 1;
    }
    return 0;
}

int main(void)
{
    static const uint8_t upload[] =
        "\0\0\0\x37\3\0\0\0\1\1\1" "\6upload\4"
        "\4slot\3\3" "\5delay\4\xf2\x3f"
        "\4slot\3\x11" "\5delay\4\xf6\xc3\xfe\xfe\xfe\xfe\xfe\xfe\xfe\x0e";
    static uint8_t input[MOST_BYTES + 1];
    size_t length = 0;

    if (!isatty(STDIN_FILENO))
        length = fread(input, 1, sizeof input, stdin);
    if (ferror(stdin)) {
        perror("standard input");
        return 1;
    }
    if (length > MOST_BYTES) {
        fprintf(stderr, "the input has more than %d bytes\n", MOST_BYTES);
        return 1;
    }
    if (length == 0) {
        printf("nothing on standard input: a frame of the program's own\n");
        return read_all(spop_bytes_of(upload, sizeof upload - 1));
    }
    return read_all(spop_bytes_of(input, length));
}
