/* Splices two ACKs as a gateway does, and compares what it made with the ACK of both lists of actions. Each frame is taken apart by
 * the lengths that it has, and the third has its own head and both payloads. It is the same frame, byte by byte (`actions-joined`
 * in docs/PROMISES.md); in the other order it is another one; and where the ACK of both lists is refused, so is the splice. */
#include <inttypes.h>
#include <stdio.h>

#include "spop_build.h"

/* Four length bytes, the type, four bytes of flags, and two numbers of at most ten bytes. */
enum { LENGTH = 4, START = LENGTH + 1 + 4, HEAD = START + 2 * 10, LIMIT = SPOP_AGREED_FRAME };

/* A list of actions, and the ACK of it. */
struct ack {
    uint8_t pool[128];
    struct spop_action actions[8];
    struct spop_builder b;
    uint8_t out[256];
    struct spop_bytes frame;
};

/* An ACK taken apart. */
struct parts {
    struct spop_ids ids;
    struct spop_bytes payload;
};

static uint32_t length_in(const uint8_t *bytes)
{
    return (uint32_t)bytes[0] << 24 | (uint32_t)bytes[1] << 16 | (uint32_t)bytes[2] << 8 | bytes[3];
}

static void put_length(uint8_t *bytes, uint32_t length)
{
    for (int i = 0; i < LENGTH; i++)
        bytes[i] = (uint8_t)(length >> (24 - 8 * i));
}

/* Takes a whole ACK apart, of which FIN alone is set. Its payload is what stands behind the second number. */
static bool take_apart(struct spop_bytes frame, struct parts *parts)
{
    static const uint8_t type_and_flags[] = {SPOP_ACK, 0, 0, 0, SPOP_FIN};
    struct spop_bytes rest = spop_bytes_behind(frame, START);
    uint64_t used;

    if (frame.len < START || length_in(frame.start) != frame.len - LENGTH)
        return false;
    if (!spop_bytes_equal(spop_bytes_at(frame, LENGTH, START - LENGTH), spop_bytes_of(type_and_flags, sizeof type_and_flags)))
        return false;
    if (spop_get_number(rest, &parts->ids.stream_id, &used) != SPOP_DONE)
        return false;
    rest = spop_bytes_behind(rest, used);
    if (spop_get_number(rest, &parts->ids.frame_id, &used) != SPOP_DONE)
        return false;
    parts->payload = spop_bytes_behind(rest, used);
    return true;
}

/* Writes the ACK that has both payloads, and answers as spop_write_actions does. An ACK of no action is its length bytes and its
 * head, so that one is written first, and then the length that it is to have. */
static uint64_t splice(struct spop_ids ids, struct spop_bytes first, struct spop_bytes second, struct spop_room out, uint32_t limit,
                       uint64_t *at)
{
    uint8_t head[HEAD];
    uint64_t number = spop_put_ack(ids, spop_bytes_of(NULL, 0), NULL, 0, spop_room_of(head, sizeof head), limit, at);
    size_t head_len = (size_t)*at, len = head_len + first.len + second.len;

    if (number != SPOP_DONE)
        return number;
    *at = 0;
    if (len - LENGTH > limit)
        return SPOP_OVER_LIMIT;
    if (len > out.len)
        return SPOP_NO_ROOM;
    memcpy(out.start, head, head_len);
    put_length(out.start, (uint32_t)(len - LENGTH));
    if (first.len > 0)
        memcpy(out.start + head_len, first.start, first.len);
    if (second.len > 0)
        memcpy(out.start + head_len + first.len, second.start, second.len);
    *at = len;
    return SPOP_DONE;
}

/* A slot and its residual delay in picoseconds, by the names that the two variables have. */
static void set_slot(struct ack *a, const char *slot_name, uint32_t slot, const char *delay_name, int64_t delay)
{
    spop_set_u32(&a->b, SPOP_SCOPE_TRANSACTION, slot_name, slot);
    spop_set_i64(&a->b, SPOP_SCOPE_TRANSACTION, delay_name, delay);
}

static void one(struct ack *a)
{
    set_slot(a, "slot0", 3, "delay0", 1250);
}

static void two(struct ack *a)
{
    set_slot(a, "slot1", 17, "delay1", -730);
    spop_unset(&a->b, SPOP_SCOPE_SESSION, "stale");
}

/* Writes the ACK of a list and then another, where there are any. */
static bool write_ack(struct ack *a, void (*list)(struct ack *), void (*then)(struct ack *), struct spop_ids ids)
{
    uint64_t number, at;

    spop_builder_init(&a->b, spop_room_of(a->pool, sizeof a->pool));
    spop_lend_actions(&a->b, a->actions, SPOP_COUNT(a->actions));
    if (list != NULL)
        list(a);
    if (then != NULL)
        then(a);
    number = spop_build_ack(&a->b, ids, spop_room_of(a->out, sizeof a->out), LIMIT, &at);
    if (number != SPOP_DONE) {
        printf("refused: %" PRIu64 " at %" PRIu64 ": %s\n", number, at, spop_refusal_text(number));
        return false;
    }
    a->frame = spop_bytes_of(a->out, (size_t)at);
    return true;
}

static void show(const char *what, struct spop_bytes bytes)
{
    printf("%-8s", what);
    for (size_t i = 0; i < bytes.len; i++)
        printf("%02x", bytes.start[i]);
    printf("\n");
}

/* Takes an ACK apart, and shows it and where its payload stands. */
static bool receive(const char *what, struct spop_bytes frame, struct parts *parts)
{
    show(what, frame);
    if (!take_apart(frame, parts)) {
        printf("is no whole ACK\n");
        return false;
    }
    printf("        stream %" PRIu64 ", frame %" PRIu64 ", payload of %zu bytes behind %zu\n", parts->ids.stream_id,
           parts->ids.frame_id, parts->payload.len, frame.len - parts->payload.len);
    return true;
}

/* The ACK that has both payloads, or no byte. */
static struct spop_bytes spliced(struct spop_ids ids, const struct parts *first, const struct parts *second, struct spop_room out)
{
    uint64_t at;

    if (splice(ids, first->payload, second->payload, out, LIMIT, &at) != SPOP_DONE)
        return spop_bytes_of(NULL, 0);
    return spop_bytes_of(out.start, (size_t)at);
}

static const char *compared(struct spop_bytes a, struct spop_bytes b)
{
    return spop_bytes_equal(a, b) ? "the same" : "different";
}

int main(void)
{
    static struct ack first, second, none, both;
    static uint8_t out[256], other[256];
    struct spop_bytes made;
    struct parts p, q, r;
    uint64_t at, also_at, number, also;
    uint32_t limit;

    if (!write_ack(&first, one, NULL, spop_ids_of(1, 1)) || !write_ack(&second, two, NULL, spop_ids_of(1, 240)) ||
        !write_ack(&none, NULL, NULL, spop_ids_of(1, 2)) || !write_ack(&both, one, two, spop_ids_of(1, 1)))
        return 1;
    if (!receive("first", first.frame, &p) || !receive("second", second.frame, &q) || !receive("none", none.frame, &r))
        return 1;

    made = spliced(p.ids, &p, &q, spop_room_of(out, sizeof out));
    show("spliced", made);
    show("both", both.frame);
    printf("first and second: %s\n", compared(made, both.frame));
    printf("second and first: %s\n", compared(spliced(p.ids, &q, &p, spop_room_of(other, sizeof other)), both.frame));
    printf("first and none: %s as first\n", compared(spliced(p.ids, &p, &r, spop_room_of(other, sizeof other)), first.frame));

    limit = (uint32_t)(both.frame.len - LENGTH - 1);
    number = splice(p.ids, p.payload, q.payload, spop_room_of(other, sizeof other), limit, &at);
    also = spop_build_ack(&both.b, p.ids, spop_room_of(other, sizeof other), limit, &also_at);
    printf("one byte over the limit: %" PRIu64 " at %" PRIu64 ", and %" PRIu64 " at %" PRIu64 "\n", number, at, also, also_at);
    return spop_bytes_equal(made, both.frame) ? 0 : 1;
}
