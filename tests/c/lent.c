/* What the helpers lend to the calls. Here stand calls in place of the library's that look at it: no pointer is null, tables are
 * counted in numbers, and each word is where the call has it. */
#include "check.h"

/* The lengths and counts of the last call, in the order of its words. */
static uint64_t seen[8];
static int seen_count;
static bool null_seen;

static void begin(void)
{
    memset(seen, 0, sizeof seen);
    seen_count = 0;
    null_seen = false;
}

static void look(const void *start, uint64_t len)
{
    null_seen = null_seen || start == NULL;
    seen[seen_count++] = len;
}

static void count(uint64_t n)
{
    seen[seen_count++] = n;
}

uint64_t spop_encode_varint(uint64_t n, uint8_t *out, size_t out_len, uint64_t *at)
{
    begin();
    count(n);
    look(out, out_len);
    look(at, 1);
    return 41;
}

uint64_t spop_decode_varint(const uint8_t *input, size_t input_len, uint64_t *value, uint64_t *at)
{
    begin();
    look(input, input_len);
    look(value, 1);
    look(at, 1);
    return 42;
}

bool spop_is_utf8(const uint8_t *bytes, size_t len)
{
    begin();
    look(bytes, len);
    return true;
}

bool spop_same_text(const uint8_t *a, size_t a_len, const uint8_t *b, size_t b_len)
{
    begin();
    look(a, a_len);
    look(b, b_len);
    return true;
}

uint64_t spop_same_text_plain(const uint8_t *a, size_t a_len, const uint8_t *b, size_t b_len, uint8_t *a_text, size_t a_text_len,
                              uint8_t *b_text, size_t b_text_len, bool *same, uint64_t *at)
{
    begin();
    look(a, a_len);
    look(b, b_len);
    look(a_text, a_text_len);
    look(b_text, b_text_len);
    look(same, 1);
    look(at, 1);
    return 53;
}

uint64_t spop_lossy_text(const uint8_t *bytes, size_t len, uint8_t *out, size_t out_len, uint64_t *at)
{
    begin();
    look(bytes, len);
    look(out, out_len);
    look(at, 1);
    return 43;
}

uint64_t spop_typed_data(const uint8_t *input, size_t input_len, uint64_t value[SPOP_VALUE_WIDTH], uint64_t *at)
{
    begin();
    look(input, input_len);
    look(value, 1);
    look(at, 1);
    return 44;
}

uint64_t spop_value_len(const uint64_t value[SPOP_VALUE_WIDTH], const uint8_t *buffer, size_t buffer_len)
{
    begin();
    look(value, 1);
    look(buffer, buffer_len);
    return 45;
}

uint64_t spop_check_value(const uint64_t value[SPOP_VALUE_WIDTH], const uint8_t *buffer, size_t buffer_len)
{
    begin();
    look(value, 1);
    look(buffer, buffer_len);
    return 46;
}

uint64_t spop_write_value(const uint64_t value[SPOP_VALUE_WIDTH], const uint8_t *buffer, size_t buffer_len, uint8_t *out,
                          size_t out_len, uint64_t *at)
{
    begin();
    look(value, 1);
    look(buffer, buffer_len);
    look(out, out_len);
    look(at, 1);
    return 47;
}

uint64_t spop_read_pair(const uint8_t *input, size_t input_len, uint64_t pair[SPOP_PAIR_WIDTH], uint64_t *at)
{
    begin();
    look(input, input_len);
    look(pair, 1);
    look(at, 1);
    return 48;
}

uint64_t spop_read_frame(const uint8_t *input, size_t input_len, uint32_t limit, uint64_t *messages, size_t messages_len,
                         uint64_t *pairs, size_t pairs_len, uint64_t head[6], uint64_t *at)
{
    begin();
    look(input, input_len);
    count(limit);
    look(messages, messages_len);
    look(pairs, pairs_len);
    look(head, 1);
    look(at, 1);
    return 49;
}

uint64_t spop_read_frames(const uint8_t *input, size_t input_len, uint32_t limit, uint64_t *rows, size_t rows_len,
                          uint64_t *messages, size_t messages_len, uint64_t *pairs, size_t pairs_len, uint64_t counts[4],
                          uint64_t *at)
{
    begin();
    look(input, input_len);
    count(limit);
    look(rows, rows_len);
    look(messages, messages_len);
    look(pairs, pairs_len);
    look(counts, 1);
    look(at, 1);
    return 56;
}

uint64_t spop_read_agent_frame(const uint8_t *input, size_t input_len, uint32_t limit, uint64_t *pairs, size_t pairs_len,
                               uint64_t *actions, size_t actions_len, uint64_t head[6], uint64_t *at)
{
    begin();
    look(input, input_len);
    count(limit);
    look(pairs, pairs_len);
    look(actions, actions_len);
    look(head, 1);
    look(at, 1);
    return 55;
}

uint64_t spop_write_kv(uint64_t type, bool fin, bool abort, uint64_t stream_id, uint64_t frame_id, uint32_t limit,
                       const uint8_t *buffer, size_t buffer_len, const uint64_t *pairs, size_t pairs_len, uint64_t pair_count,
                       uint8_t *out, size_t out_len, uint64_t *at)
{
    begin();
    count(type);
    count(limit);
    look(buffer, buffer_len);
    look(pairs, pairs_len);
    count(pair_count);
    look(out, out_len);
    look(at, 1);
    return fin && !abort && stream_id == 0 && frame_id == 0 ? 50 : 0;
}

uint64_t spop_write_actions(bool fin, bool abort, uint64_t stream_id, uint64_t frame_id, uint32_t limit, const uint8_t *buffer,
                            size_t buffer_len, const uint64_t *actions, size_t actions_len, uint64_t action_count, uint8_t *out,
                            size_t out_len, uint64_t *at)
{
    begin();
    count(limit);
    look(buffer, buffer_len);
    look(actions, actions_len);
    count(action_count);
    look(out, out_len);
    look(at, 1);
    return fin && !abort && stream_id == 81 && frame_id == 82 ? 51 : 0;
}

uint64_t spop_write_notify(bool fin, bool abort, uint64_t stream_id, uint64_t frame_id, uint32_t limit, const uint8_t *buffer,
                           size_t buffer_len, const uint64_t *messages, size_t messages_len, uint64_t message_count,
                           const uint64_t *pairs, size_t pairs_len, uint64_t pair_count, uint8_t *out, size_t out_len,
                           uint64_t *at)
{
    begin();
    count(limit);
    look(buffer, buffer_len);
    look(messages, messages_len);
    count(message_count);
    look(pairs, pairs_len);
    count(pair_count);
    look(out, out_len);
    look(at, 1);
    return fin && !abort && stream_id == 81 && frame_id == 82 ? 52 : 0;
}

bool spop_negotiate_version(const uint64_t *versions, size_t versions_len, uint64_t version[3])
{
    begin();
    look(versions, versions_len);
    look(version, 1);
    return true;
}

/* Checks the answer that was handed on, and what was lent. */
static void lent(const char *what, uint64_t answer, uint64_t should, uint64_t a, uint64_t b, uint64_t c, uint64_t d, uint64_t e,
                 uint64_t f, uint64_t g, uint64_t h)
{
    const uint64_t should_see[] = {a, b, c, d, e, f, g, h};

    check(what, answer == should && !null_seen && memcmp(seen, should_see, sizeof seen) == 0);
}

/* Each helper, with bytes of 5, room of 6 and tables of so many records. */
static void lend(struct spop_bytes bytes, struct spop_room room, struct spop_row *rows, struct spop_message *messages,
                 struct spop_pair *pairs, struct spop_action *actions, struct spop_announced *versions, bool null)
{
    uint64_t b = null ? 0 : 5, r = null ? 0 : 6, f = null ? 0 : 5 * 7;
    uint64_t m = null ? 0 : 2 * 4, p = null ? 0 : 3 * 6, a = null ? 0 : 4 * 8, v = null ? 0 : 2 * 4;
    struct spop_ids ids = spop_ids_of(81, 82);
    struct spop_value value = {0, 0, 0, 0};
    struct spop_version version;
    struct spop_pair pair;
    struct spop_head head;
    uint8_t other[2];
    struct spop_agent_head agent_head;
    struct spop_counts counts;
    uint64_t n, at;
    bool same;

    lent("put_number", spop_put_number(77, room, &at), 41, 77, r, 1, 0, 0, 0, 0, 0);
    lent("get_number", spop_get_number(bytes, &n, &at), 42, b, 1, 1, 0, 0, 0, 0, 0);
    lent("bytes_are_text", spop_bytes_are_text(bytes), 1, b, 0, 0, 0, 0, 0, 0, 0);
    lent("texts_equal", spop_texts_equal(bytes, spop_text_of("abc")), 1, b, 3, 0, 0, 0, 0, 0, 0);
    lent("texts_equal, the second", spop_texts_equal(spop_text_of("abc"), bytes), 1, 3, b, 0, 0, 0, 0, 0, 0);
    lent("put_both_texts", spop_put_both_texts(bytes, spop_text_of("abc"), room, spop_room_of(other, 2), &same, &at), 53, b, 3, r,
         2, 1, 1, 0, 0);
    lent("put_both_texts, the second", spop_put_both_texts(spop_text_of("abc"), bytes, spop_room_of(other, 2), room, &same, &at),
         53, 3, b, 2, r, 1, 1, 0, 0);
    lent("put_lossy_text", spop_put_lossy_text(bytes, room, &at), 43, b, r, 1, 0, 0, 0, 0, 0);
    lent("get_value", spop_get_value(bytes, &value, &at), 44, b, 1, 1, 0, 0, 0, 0, 0);
    lent("value_bytes", spop_value_bytes(&value, bytes), 45, 1, b, 0, 0, 0, 0, 0, 0);
    lent("value_refusal", spop_value_refusal(&value, bytes), 46, 1, b, 0, 0, 0, 0, 0, 0);
    lent("put_value", spop_put_value(&value, bytes, room, &at), 47, 1, b, r, 1, 0, 0, 0, 0);
    lent("get_pair", spop_get_pair(bytes, &pair, &at), 48, b, 1, 1, 0, 0, 0, 0, 0);
    lent("get_frame", spop_get_frame(bytes, 99, messages, 2, pairs, 3, &head, &at), 49, b, 99, m, p, 1, 1, 0, 0);
    lent("get_frames", spop_get_frames(bytes, 99, rows, 5, messages, 2, pairs, 3, &counts, &at), 56, b, 99, f, m, p, 1, 1, 0);
    lent("get_agent_frame", spop_get_agent_frame(bytes, 99, pairs, 3, actions, 4, &agent_head, &at), 55, b, 99, p, a, 1, 1, 0, 0);
    lent("put_kv", spop_put_kv(SPOP_AGENT_HELLO, bytes, pairs, 3, room, 99, &at), 50, 101, 99, b, p, 3, r, 1, 0);
    lent("put_ack", spop_put_ack(ids, bytes, actions, 4, room, 99, &at), 51, 99, b, a, 4, r, 1, 0, 0);
    lent("put_notify", spop_put_notify(ids, bytes, messages, 2, pairs, 3, room, 99, &at), 52, 99, b, m, 2, p, 3, r, 1);
    lent("choose_version", spop_choose_version(versions, 2, &version), 1, v, 1, 0, 0, 0, 0, 0, 0);
}

int main(void)
{
    static uint8_t memory[6];
    static struct spop_row rows[5];
    static struct spop_message messages[2];
    static struct spop_pair pairs[3];
    static struct spop_action actions[4];
    static struct spop_announced versions[2];

    lend(spop_bytes_of(memory, 5), spop_room_of(memory, 6), rows, messages, pairs, actions, versions, false);
    lend(spop_bytes_of(NULL, 0), spop_room_of(NULL, 0), NULL, NULL, NULL, NULL, NULL, true);
    lend(spop_bytes_of(NULL, 5), spop_room_of(NULL, 6), NULL, NULL, NULL, NULL, NULL, true);
    return checked();
}
