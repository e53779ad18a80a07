/* Every call of the library: done at least once, and refused at least once where it refuses. The bytes are worked out from
 * docs/RULES.md. */
#include "check.h"

enum { MARK = 0xaa };

static void numbers(void)
{
    uint8_t out[16], bytes[16];
    uint64_t value, at, number;
    size_t len;

    check("varint_len of 239", spop_varint_len(239) == 1);
    check("varint_len of 2288", spop_varint_len(2288) == 3);
    check("varint_len of 2^64-1", spop_varint_len(UINT64_MAX) == 10);

    memset(out, MARK, sizeof out);
    number = spop_encode_varint(2288, out, 3, &at);
    answered("encode_varint", number, at, SPOP_DONE, 3);
    check("encode_varint writes three bytes", is_hex(out, 3, "f08000") && is_all(out + 3, 13, MARK));
    memset(out, MARK, sizeof out);
    number = spop_encode_varint(2288, out, 2, &at);
    answered("encode_varint without room", number, at, SPOP_NO_ROOM, 0);
    check("encode_varint refused writes nothing", is_all(out, sizeof out, MARK));

    len = from_hex("ff f0 fe fe fe fe fe fe fe 0e", bytes);
    number = spop_decode_varint(bytes, len, &value, &at);
    answered("decode_varint", number, at, SPOP_DONE, 10);
    check("decode_varint gives the number", value == UINT64_MAX);
    value = 5;
    number = spop_decode_varint(bytes, 9, &value, &at);
    answered("decode_varint cut", number, at, SPOP_TOO_SOON, 9);
    len = from_hex("f0 80 80 80 80 80 80 80 80 0f", bytes);
    number = spop_decode_varint(bytes, len, &value, &at);
    answered("decode_varint too large", number, at, SPOP_TOO_LARGE, 10);
    len = from_hex("f0 80 80 80 80 80 80 80 80 10", bytes);
    number = spop_decode_varint(bytes, len, &value, &at);
    answered("decode_varint not fitting", number, at, SPOP_NOT_FITTING, 10);
    check("decode_varint refused sets no value", value == 5);
}

static void texts(void)
{
    uint8_t surrogate[4], cut[4], one[4], two[4], out[16];
    uint64_t at, number;
    bool same = false;

    from_hex("ed a0 80", surrogate);
    from_hex("e2 82", cut);
    from_hex("41 ff", one);
    from_hex("41 fe", two);
    check("is_utf8 of delay", spop_is_utf8((const uint8_t *)"delay", 5));
    check("is_utf8 of a surrogate", !spop_is_utf8(surrogate, 3));
    check("same_text where both are ill-formed alike", spop_same_text(one, 2, two, 2));
    check("same_text of others", !spop_same_text(one, 2, one, 1));

    memset(out, MARK, sizeof out);
    number = spop_same_text_plain(one, 2, two, 2, out, 5, out + 8, 4, &same, &at);
    answered("same_text_plain", number, at, SPOP_DONE, 0);
    check("same_text_plain where both are ill-formed alike", same);
    check("same_text_plain writes both", is_hex(out, 4, "41 efbfbd") && is_hex(out + 8, 4, "41 efbfbd"));
    check("same_text_plain keeps the rest", is_all(out + 4, 4, MARK) && is_all(out + 12, 4, MARK));
    memset(out, MARK, sizeof out);
    number = spop_same_text_plain(one, 2, two, 2, out, 4, out + 8, 3, &same, &at);
    answered("same_text_plain without room for the second", number, at, SPOP_NO_ROOM, 0);
    number = spop_same_text_plain(one, 1, two, 2, out, 0, out + 8, 4, &same, &at);
    answered("same_text_plain without room for the first", number, at, SPOP_NO_ROOM, 0);
    check("same_text_plain refused changes nothing", same && is_all(out, sizeof out, MARK));
    number = spop_same_text_plain(one, 1, two, 2, out, 1, out + 8, 4, &same, &at);
    answered("same_text_plain of others", number, at, SPOP_DONE, 0);
    check("same_text_plain says that they are others", !same);

    memset(out, MARK, sizeof out);
    number = spop_lossy_text(surrogate, 3, out, 9, &at);
    answered("lossy_text of a surrogate", number, at, SPOP_DONE, 9);
    check("lossy_text writes three marks", is_hex(out, 9, "efbfbd efbfbd efbfbd") && is_all(out + 9, 7, MARK));
    memset(out, MARK, sizeof out);
    number = spop_lossy_text(cut, 2, out, 2, &at);
    answered("lossy_text without room", number, at, SPOP_NO_ROOM, 0);
    check("lossy_text refused writes nothing", is_all(out, sizeof out, MARK));
}

static void values(void)
{
    static const uint64_t u32[] = {SPOP_KIND_U32, 300, 0, 0}, outside[] = {SPOP_KIND_STRING, 2, 2, 0},
                          text[] = {SPOP_KIND_STRING, 1, 2, 0}, no_bool[] = {SPOP_KIND_BOOL, 2, 0, 0};
    static const uint8_t buffer[] = {'a', 'b', 0xff};
    uint8_t bytes[4], out[8];
    uint64_t value[SPOP_VALUE_WIDTH], at, number;

    from_hex("23 07", bytes);
    number = spop_typed_data(bytes, 2, value, &at);
    answered("typed_data", number, at, SPOP_DONE, 2);
    check("typed_data gives the value", value[0] == SPOP_KIND_U32 && value[1] == 7 && value[2] == 0 && value[3] == 2);
    memset(value, MARK, sizeof value);
    from_hex("0a", bytes);
    number = spop_typed_data(bytes, 1, value, &at);
    answered("typed_data of no type", number, at, SPOP_NO_TYPE, 1);
    check("typed_data refused sets nothing", is_all(value, sizeof value, MARK));

    check("value_len", spop_value_len(u32, buffer, 3) == 3);
    check("value_len of what is not writable", spop_value_len(no_bool, buffer, 3) == 0);
    check("check_value", spop_check_value(u32, buffer, 3) == SPOP_DONE);
    check("check_value of a bool of 2", spop_check_value(no_bool, buffer, 3) == SPOP_NOT_WRITABLE);
    check("check_value outside", spop_check_value(outside, buffer, 3) == SPOP_OUTSIDE);
    check("check_value of no text", spop_check_value(text, buffer, 3) == SPOP_NOT_TEXT);

    memset(out, MARK, sizeof out);
    number = spop_write_value(u32, buffer, 3, out, 3, &at);
    answered("write_value", number, at, SPOP_DONE, 3);
    check("write_value writes three bytes", is_hex(out, 3, "03 fc 03") && is_all(out + 3, 5, MARK));
    memset(out, MARK, sizeof out);
    number = spop_write_value(u32, buffer, 3, out, 2, &at);
    answered("write_value without room", number, at, SPOP_NO_ROOM, 0);
    number = spop_write_value(no_bool, buffer, 3, out, 8, &at);
    answered("write_value of a bool of 2", number, at, SPOP_NOT_WRITABLE, 0);
    number = spop_write_value(outside, buffer, 3, out, 8, &at);
    answered("write_value outside", number, at, SPOP_OUTSIDE, 0);
    check("write_value refused writes nothing", is_all(out, sizeof out, MARK));
}

static void pairs(void)
{
    uint8_t bytes[16];
    uint64_t pair[SPOP_PAIR_WIDTH], at, number;
    size_t len = from_hex("04 736c6f74 03 03", bytes);

    number = spop_read_pair(bytes, len, pair, &at);
    answered("read_pair", number, at, SPOP_DONE, 7);
    check("read_pair gives the pair", pair[0] == 1 && pair[1] == 4 && pair[2] == SPOP_KIND_U32 && pair[3] == 3 && pair[4] == 0 &&
          pair[5] == 0);
    memset(pair, MARK, sizeof pair);
    len = from_hex("04 736c6f74 0a", bytes);
    number = spop_read_pair(bytes, len, pair, &at);
    answered("read_pair of no type", number, at, SPOP_NO_TYPE, 6);
    check("read_pair refused sets nothing", is_all(pair, sizeof pair, MARK));
}

/* A frame that is read: with a limit, and rooms for messages and pairs. */
struct reading {
    const char *what;
    const char *hex;
    uint32_t limit;
    size_t messages, pairs;
    uint64_t number, at;
};

static const struct reading readings[] = {
    {"an upload", UPLOAD, 55, 1, 4, SPOP_DONE, 59},
    {"a hello without pairs", "00000007 01 00000001 00 00", 7, 0, 0, SPOP_DONE, 11},
    {"bytes behind a frame", "00000007 01 00000001 00 00 ff", 7, 0, 0, SPOP_DONE, 11},
    {"no byte", "", 55, 1, 4, SPOP_WAIT, 4},
    {"three of the length bytes", "000000", 55, 1, 4, SPOP_WAIT, 1},
    {"the length bytes alone", "00000037", 55, 1, 4, SPOP_WAIT, 55},
    {"a length over the limit", UPLOAD, 54, 1, 4, SPOP_OVERSIZE, 4},
    {"a length of 0", "00000000", 55, 1, 4, SPOP_TOO_SOON, 4},
    {"no flags", "00000001 01", 55, 1, 4, SPOP_TOO_SOON, 5},
    {"a key that is cut", "00000008 01 00000001 00 00 05", 55, 1, 4, SPOP_TOO_SOON, 12},
    {"type 4", "00000007 04 00000001 00 00", 55, 1, 4, SPOP_UNKNOWN, 4},
    {"no FIN", "00000007 01 00000000 00 00", 55, 1, 4, SPOP_UNKNOWN, 4},
    {"ABORT", "00000007 01 00000003 00 00", 55, 1, 4, SPOP_ABORTED, 4},
    {"an agent's hello", "00000007 65 00000001 00 00", 55, 1, 4, SPOP_AGENTS, 4},
    {"a stream id that is too large", "00000010 01 00000001 f080808080808080800f 00", 55, 1, 4, SPOP_TOO_LARGE, 19},
    {"a stream id that does not fit", "00000010 01 00000001 f0808080808080808010 00", 55, 1, 4, SPOP_NOT_FITTING, 19},
    {"data of no type", "0000000a 01 00000001 00 00 01 41 0a", 55, 1, 4, SPOP_NO_TYPE, 14},
    {"a key twice", "0000000f 01 00000001 00 00 02 41ff 00 02 41fe 00", 55, 1, 4, SPOP_MET_TWICE, 19},
    {"no room for the message", UPLOAD, 55, 0, 4, SPOP_TABLE_FULL, 19},
    {"no room for the last pair", UPLOAD, 55, 1, 3, SPOP_TABLE_FULL, 59}
};

static void is_upload(const uint64_t *head, const uint64_t *messages, const uint64_t *p)
{
    static const uint64_t should_head[] = {SPOP_NOTIFY, SPOP_FIN, 1, 1, 1, 4}, should_message[] = {12, 6, 0, 4};
    static const uint64_t should_pairs[] = {
        20, 4, SPOP_KIND_U32, 3, 0, 0,
        27, 5, SPOP_KIND_I64, 1250, 0, 0,
        36, 4, SPOP_KIND_U32, 17, 0, 0,
        43, 5, SPOP_KIND_I64, (uint64_t)INT64_C(-730), 0, 0
    };

    check("the upload's head", memcmp(head, should_head, sizeof should_head) == 0);
    check("the upload's message", memcmp(messages, should_message, sizeof should_message) == 0);
    check("the upload's pairs", memcmp(p, should_pairs, sizeof should_pairs) == 0);
}

static void read_one(const struct reading *r)
{
    uint8_t input[128];
    uint64_t head[6], messages[SPOP_MESSAGE_WIDTH], numbers_of_pairs[4 * SPOP_PAIR_WIDTH], at, number;
    struct spop_pair records[4];
    size_t len = from_hex(r->hex, input);
    bool upload = r->number == SPOP_DONE && r->messages > 0;

    memset(head, MARK, sizeof head);
    memset(messages, MARK, sizeof messages);
    memset(numbers_of_pairs, MARK, sizeof numbers_of_pairs);
    number = spop_read_frame(input, len, r->limit, messages, SPOP_MESSAGE_WIDTH * r->messages, numbers_of_pairs,
                             SPOP_PAIR_WIDTH * r->pairs, head, &at);
    answered(r->what, number, at, r->number, r->at);
    if (upload)
        is_upload(head, messages, numbers_of_pairs);
    else
        check("read_frame leaves the tables", is_all(messages, sizeof messages, MARK) &&
              is_all(numbers_of_pairs, sizeof numbers_of_pairs, MARK));
    check("read_frame sets the head after 0 alone", is_all(head, sizeof head, MARK) == (r->number != SPOP_DONE));

    memset(head, MARK, sizeof head);
    memset(messages, MARK, sizeof messages);
    memset(records, MARK, sizeof records);
    number = spop_read_frame_records(input, len, r->limit, messages, SPOP_MESSAGE_WIDTH * r->messages, records, r->pairs, head,
                                     &at);
    answered(r->what, number, at, r->number, r->at);
    if (upload)
        check("the same records", memcmp(records, numbers_of_pairs, sizeof records) == 0 && messages[0] == 12 && head[5] == 4);
    else
        check("read_frame_records leaves the tables", is_all(messages, sizeof messages, MARK) &&
              is_all(records, sizeof records, MARK));
}

/* A buffer of four frames: a hello with a pair, the upload, a NOTIFY without a message, and a disconnect without a pair. */
#define BUFFER "0000000a 01 00000001 00 00 01 41 00" UPLOAD "00000007 03 00000001 02 03" "00000007 02 00000001 00 00"
enum { BUFFER_LEN = 95, LAST_TYPE = 88, FRAMES = 4 };

/* So many of its bytes, with another type for the last frame, a limit and rooms; the answer, and how many frames are read. */
static const struct {
    const char *what;
    size_t len;
    uint8_t last_type;
    uint32_t limit;
    size_t rows, messages, pairs;
    uint64_t number, at, frames;
} buffers[] = {
    {"a whole buffer", 95, 2, 55, 4, 1, 5, SPOP_WAIT, 4, 4},
    {"a buffer with more room", 95, 2, 55, 5, 2, 6, SPOP_WAIT, 4, 4},
    {"no byte in a buffer", 0, 2, 55, 0, 0, 0, SPOP_WAIT, 4, 0},
    {"a buffer that is cut in its last frame", 94, 2, 55, 4, 1, 5, SPOP_WAIT, 1, 3},
    {"a buffer that is cut where there is no row", 94, 2, 55, 3, 1, 5, SPOP_WAIT, 1, 3},
    {"a buffer that is cut in its first length bytes", 3, 2, 55, 4, 1, 5, SPOP_WAIT, 1, 0},
    {"a buffer without its last row", 95, 2, 55, 3, 1, 5, SPOP_TABLE_FULL, 11, 3},
    {"a buffer with a row", 95, 2, 55, 1, 1, 5, SPOP_TABLE_FULL, 59, 1},
    {"a buffer without a row", 95, 2, 55, 0, 1, 5, SPOP_TABLE_FULL, 14, 0},
    {"a buffer without room for the message", 95, 2, 55, 4, 0, 5, SPOP_TABLE_FULL, 19, 1},
    {"a buffer without room for the message or its row", 95, 2, 55, 1, 0, 5, SPOP_TABLE_FULL, 19, 1},
    {"a buffer without room for the last pair", 95, 2, 55, 4, 1, 4, SPOP_TABLE_FULL, 59, 1},
    {"a buffer without room for a pair", 95, 2, 55, 4, 1, 0, SPOP_TABLE_FULL, 14, 0},
    {"a buffer with a frame over the limit", 95, 2, 54, 4, 1, 5, SPOP_OVERSIZE, 4, 1},
    {"a buffer with a refused frame", 95, 4, 55, 4, 1, 5, SPOP_UNKNOWN, 4, 3},
    {"a buffer with a refused frame where there is no row", 95, 4, 55, 3, 1, 5, SPOP_UNKNOWN, 4, 3},
    {"a buffer with an agent's frame", 95, 102, 55, 4, 1, 5, SPOP_AGENTS, 4, 3}
};

/* Whether a table begins with these numbers, and what is behind them stays. */
static bool begins(const uint64_t *table, size_t len, const uint64_t *should, size_t count)
{
    return memcmp(table, should, count * sizeof *table) == 0 && is_all(table + count, (len - count) * sizeof *table, MARK);
}

static void read_buffers(void)
{
    static const uint64_t should_rows[FRAMES * SPOP_ROW_WIDTH] = {
        0, 14, SPOP_HAPROXY_HELLO, 0, 0, 0, 1,
        14, 59, SPOP_NOTIFY, 1, 1, 0, 1,
        73, 11, SPOP_NOTIFY, 2, 3, 1, 0,
        84, 11, SPOP_HAPROXY_DISCONNECT, 0, 0, 5, 0
    };
    static const uint64_t should_messages[] = {12, 6, 0, 4};
    static const uint64_t should_pairs[] = {
        12, 1, SPOP_KIND_NULL, 0, 0, 0,
        20, 4, SPOP_KIND_U32, 3, 0, 0,
        27, 5, SPOP_KIND_I64, 1250, 0, 0,
        36, 4, SPOP_KIND_U32, 17, 0, 0,
        43, 5, SPOP_KIND_I64, (uint64_t)INT64_C(-730), 0, 0
    };
    /* By the frames that are read. */
    static const uint64_t should_counts[FRAMES + 1][4] = {{0, 0, 0, 0}, {1, 0, 1, 14}, {2, 1, 5, 73}, {3, 1, 5, 84}, {4, 1, 5, 95}};
    uint8_t input[BUFFER_LEN];
    uint64_t rows[5 * SPOP_ROW_WIDTH], messages[2 * SPOP_MESSAGE_WIDTH], records[6 * SPOP_PAIR_WIDTH], counts[4], at, number;

    check("the buffer's length", from_hex(BUFFER, input) == BUFFER_LEN);
    for (size_t i = 0; i < SPOP_COUNT(buffers); i++) {
        const uint64_t *should = should_counts[buffers[i].frames];

        memset(rows, MARK, sizeof rows);
        memset(messages, MARK, sizeof messages);
        memset(records, MARK, sizeof records);
        memset(counts, MARK, sizeof counts);
        input[LAST_TYPE] = buffers[i].last_type;
        number = spop_read_frames(input, buffers[i].len, buffers[i].limit, rows, SPOP_ROW_WIDTH * buffers[i].rows,
                                  messages, SPOP_MESSAGE_WIDTH * buffers[i].messages, records, SPOP_PAIR_WIDTH * buffers[i].pairs,
                                  counts, &at);
        answered(buffers[i].what, number, at, buffers[i].number, buffers[i].at);
        check(buffers[i].what, memcmp(counts, should, sizeof counts) == 0);
        check(buffers[i].what, begins(rows, SPOP_COUNT(rows), should_rows, SPOP_ROW_WIDTH * should[0]));
        check(buffers[i].what, begins(messages, SPOP_COUNT(messages), should_messages, SPOP_MESSAGE_WIDTH * should[1]));
        check(buffers[i].what, begins(records, SPOP_COUNT(records), should_pairs, SPOP_PAIR_WIDTH * should[2]));
    }
}

/* Of an ACK with these bytes behind its ids, in tables for two pairs and two actions. */
static const struct {
    const char *what, *hex;
    uint64_t number, at;
} acks[] = {
    {"an ACK without an action", "00000007 67 00000001 01 02", SPOP_DONE, 11},
    {"an ACK of a set and an unset", "00000013 67 00000001 01 02 010302016103 07 0202040162", SPOP_DONE, 23},
    {"an unknown action", "00000008 67 00000001 01 02 03", SPOP_UNKNOWN_ACTION, 12},
    {"no argument count", "00000008 67 00000001 01 02 01", SPOP_TOO_SOON, 12},
    {"an unset of three arguments", "00000009 67 00000001 01 02 0203", SPOP_UNKNOWN_ACTION, 13},
    {"a scope above 4", "0000000a 67 00000001 01 02 020205", SPOP_UNKNOWN_ACTION, 14},
    {"no room for the third action", "00000016 67 00000001 01 02 0202000161 0202000162 0202000163", SPOP_TABLE_FULL, 26},
    {"an agent's hello", "0000000b 65 00000001 00 00 01610307", SPOP_DONE, 15},
    {"a NOTIFY", "00000007 03 00000001 01 02", SPOP_AGENTS, 4}
};

static void agents(void)
{
    static const uint64_t should_head[] = {SPOP_ACK, SPOP_FIN, 1, 2, 0, 2};
    static const uint64_t should_actions[] = {1, 2, 15, 1, SPOP_KIND_U32, 7, 0, 0, 2, 4, 22, 1, 0, 0, 0, 0};
    uint8_t input[64];
    uint64_t head[6], numbers_of_pairs[2 * SPOP_PAIR_WIDTH], rows[2 * SPOP_ACTION_WIDTH], at, number;

    for (size_t i = 0; i < SPOP_COUNT(acks); i++) {
        size_t len = from_hex(acks[i].hex, input);

        memset(head, MARK, sizeof head);
        memset(numbers_of_pairs, MARK, sizeof numbers_of_pairs);
        memset(rows, MARK, sizeof rows);
        number = spop_read_agent_frame(input, len, 64, numbers_of_pairs, SPOP_COUNT(numbers_of_pairs), rows, SPOP_COUNT(rows), head, &at);
        answered(acks[i].what, number, at, acks[i].number, acks[i].at);
        if (number == SPOP_DONE && head[5] == 2)
            check("the ACK's actions", memcmp(head, should_head, sizeof head) == 0 && memcmp(rows, should_actions, sizeof rows) == 0);
        else
            check("read_agent_frame leaves the actions", is_all(rows, sizeof rows, MARK));
        if (number != SPOP_DONE)
            check("read_agent_frame leaves the rest", is_all(head, sizeof head, MARK) && is_all(numbers_of_pairs, sizeof numbers_of_pairs, MARK));
    }
}

/* What the writers are lent: "status-code", "message" and "normal" of a disconnect, "slot_a" and "slot_b" of an ACK, "upload",
 * "slot" and "delay" of a NOTIFY, and two bytes that are no text. */
static const uint8_t pool[] = "status-codemessagenormal" "slot_aslot_b" "uploadslotdelay" "\xc3\x28";
enum { POOL = sizeof pool - 1, STATUS_CODE = 0, MESSAGE = 11, NORMAL = 18, SLOT_A = 24, SLOT_B = 30, NAME = 36, SLOT = 42,
       DELAY = 46, NO_TEXT = 51 };

/* Checks a writer's answer, and that a refusal writes nothing. */
static void wrote(const char *what, uint64_t number, uint64_t at, const uint8_t *out, size_t room, uint64_t should,
                  uint64_t should_at)
{
    answered(what, number, at, should, should_at);
    check(what, is_all(out, room, MARK) == (should != SPOP_DONE));
}

static void kv(void)
{
    uint64_t p[] = {STATUS_CODE, 11, SPOP_KIND_U32, 0, 0, 0, MESSAGE, 7, SPOP_KIND_STRING, NORMAL, 6, 0};
    uint8_t out[64];
    uint64_t at, number;

    memset(out, MARK, sizeof out);
    number = spop_write_kv(SPOP_AGENT_DISCONNECT, true, false, 0, 0, 37, pool, POOL, p, 12, 2, out, 41, &at);
    answered("write_kv", number, at, SPOP_DONE, 41);
    check("write_kv writes a disconnect",
          is_hex(out, 41, "00000025 66 00000001 00 00 0b 7374617475732d636f6465 03 00 07 6d657373616765 08 06 6e6f726d616c") &&
          is_all(out + 41, 23, MARK));
    memset(out, MARK, sizeof out);
    number = spop_write_kv(SPOP_NOTIFY, true, false, 0, 0, 37, pool, POOL, p, 12, 2, out, 41, &at);
    wrote("write_kv of a NOTIFY", number, at, out, sizeof out, SPOP_NOT_WRITABLE, 0);
    number = spop_write_kv(SPOP_AGENT_DISCONNECT, true, false, 0, 1, 37, pool, POOL, p, 12, 2, out, 41, &at);
    wrote("write_kv with an id", number, at, out, sizeof out, SPOP_NOT_WRITABLE, 0);
    number = spop_write_kv(SPOP_AGENT_DISCONNECT, true, false, 0, 0, 37, pool, POOL, p, 11, 2, out, 41, &at);
    wrote("write_kv of more than the table has", number, at, out, sizeof out, SPOP_OUTSIDE, 0);
    number = spop_write_kv(SPOP_AGENT_DISCONNECT, true, false, 0, 0, 36, pool, POOL, p, 12, 2, out, 41, &at);
    wrote("write_kv over the limit", number, at, out, sizeof out, SPOP_OVER_LIMIT, 0);
    number = spop_write_kv(SPOP_AGENT_DISCONNECT, true, false, 0, 0, 37, pool, POOL, p, 12, 2, out, 40, &at);
    wrote("write_kv without room", number, at, out, sizeof out, SPOP_NO_ROOM, 0);
    p[6] = STATUS_CODE;
    p[7] = 11;
    number = spop_write_kv(SPOP_AGENT_DISCONNECT, true, false, 0, 0, 37, pool, POOL, p, 12, 2, out, 64, &at);
    wrote("write_kv of a key twice", number, at, out, sizeof out, SPOP_MET_TWICE, 1);
}

static void actions(void)
{
    uint64_t a[] = {SPOP_SET_VAR, SPOP_SCOPE_TRANSACTION, SLOT_A, 6, SPOP_KIND_U32, 7, 0, 0,
                    SPOP_SET_VAR, SPOP_SCOPE_TRANSACTION, SLOT_B, 6, SPOP_KIND_U32, 300, 0, 0};
    uint8_t out[64];
    uint64_t at, number;

    memset(out, MARK, sizeof out);
    number = spop_write_actions(true, false, 1, 2, 32, pool, POOL, a, 16, 2, out, 36, &at);
    answered("write_actions", number, at, SPOP_DONE, 36);
    check("write_actions writes an ACK",
          is_hex(out, 36, "00000020 67 00000001 01 02 01 03 02 06 736c6f745f61 03 07 01 03 02 06 736c6f745f62 03 fc03") &&
          is_all(out + 36, 28, MARK));
    memset(out, MARK, sizeof out);
    number = spop_write_actions(true, true, 1, 2, 32, pool, POOL, a, 16, 2, out, 36, &at);
    wrote("write_actions with ABORT", number, at, out, sizeof out, SPOP_NOT_WRITABLE, 0);
    number = spop_write_actions(true, false, 1, 2, 32, pool, POOL, a, 16, 3, out, 36, &at);
    wrote("write_actions of more than the table has", number, at, out, sizeof out, SPOP_OUTSIDE, 0);
    number = spop_write_actions(true, false, 1, 2, 31, pool, POOL, a, 16, 2, out, 36, &at);
    wrote("write_actions over the limit", number, at, out, sizeof out, SPOP_OVER_LIMIT, 0);
    number = spop_write_actions(true, false, 1, 2, 32, pool, POOL, a, 16, 2, out, 35, &at);
    wrote("write_actions without room", number, at, out, sizeof out, SPOP_NO_ROOM, 0);
    a[10] = NO_TEXT;
    a[11] = 2;
    number = spop_write_actions(true, false, 1, 2, 32, pool, POOL, a, 16, 2, out, 64, &at);
    wrote("write_actions of a name that is no text", number, at, out, sizeof out, SPOP_NOT_TEXT, 1);
    a[9] = 5;
    number = spop_write_actions(true, false, 1, 2, 32, pool, POOL, a, 16, 2, out, 64, &at);
    wrote("write_actions of scope 5", number, at, out, sizeof out, SPOP_NOT_WRITABLE, 1);
}

static void notify(void)
{
    static uint64_t many[256 * SPOP_PAIR_WIDTH];
    uint64_t m[] = {NAME, 6, 0, 4}, at, number;
    uint64_t p[] = {
        SLOT, 4, SPOP_KIND_U32, 3, 0, 0,
        DELAY, 5, SPOP_KIND_I64, 1250, 0, 0,
        SLOT, 4, SPOP_KIND_U32, 17, 0, 0,
        DELAY, 5, SPOP_KIND_I64, (uint64_t)INT64_C(-730), 0, 0
    };
    uint8_t out[64];

    memset(out, MARK, sizeof out);
    number = spop_write_notify(true, false, 1, 1, 55, pool, POOL, m, 4, 1, p, 24, 4, out, 59, &at);
    answered("write_notify", number, at, SPOP_DONE, 59);
    check("write_notify writes the upload", is_hex(out, 59, UPLOAD) && is_all(out + 59, 5, MARK));
    memset(out, MARK, sizeof out);
    number = spop_write_notify(false, false, 1, 1, 55, pool, POOL, m, 4, 1, p, 24, 4, out, 59, &at);
    wrote("write_notify without FIN", number, at, out, sizeof out, SPOP_NOT_WRITABLE, 0);
    number = spop_write_notify(true, false, 1, 1, 55, pool, POOL, m, 3, 1, p, 24, 4, out, 59, &at);
    wrote("write_notify of more messages than the table has", number, at, out, sizeof out, SPOP_OUTSIDE, 0);
    number = spop_write_notify(true, false, 1, 1, 55, pool, POOL, m, 4, 1, p, 23, 4, out, 59, &at);
    wrote("write_notify of more pairs than the table has", number, at, out, sizeof out, SPOP_OUTSIDE, 0);
    number = spop_write_notify(true, false, 1, 1, 55, pool, POOL, m, 4, 0, p, 24, 4, out, 59, &at);
    wrote("write_notify of pairs without a message", number, at, out, sizeof out, SPOP_NOT_WRITABLE, 0);
    number = spop_write_notify(true, false, 1, 1, 54, pool, POOL, m, 4, 1, p, 24, 4, out, 59, &at);
    wrote("write_notify over the limit", number, at, out, sizeof out, SPOP_OVER_LIMIT, 0);
    number = spop_write_notify(true, false, 1, 1, 55, pool, POOL, m, 4, 1, p, 24, 4, out, 58, &at);
    wrote("write_notify without room", number, at, out, sizeof out, SPOP_NO_ROOM, 0);
    p[3 * SPOP_PAIR_WIDTH] = POOL;
    number = spop_write_notify(true, false, 1, 1, 55, pool, POOL, m, 4, 1, p, 24, 4, out, 64, &at);
    wrote("write_notify of a key outside", number, at, out, sizeof out, SPOP_OUTSIDE, 3);
    m[3] = 256;
    number = spop_write_notify(true, false, 1, 1, SPOP_MAX_FRAME, pool, POOL, m, 4, 1, many, 256 * SPOP_PAIR_WIDTH, 256, out, 64,
                               &at);
    wrote("write_notify of 256 arguments", number, at, out, sizeof out, SPOP_TOO_MANY, 0);
}

static void hello(void)
{
    static const uint64_t announced[] = {1, 0, 0, 0, 2, 5, 1, 0}, old[] = {1, 2, 3, 2, 2, 0, 0}, candidates[] = {2, 0, 0, 1, 2, 1, 0, 1};
    uint64_t version[3] = {7, 7, 7}, at, number;

    number = spop_negotiate_max_frame_size(SPOP_AGREED_FRAME, 256, &at);
    answered("negotiate_max_frame_size", number, at, SPOP_DONE, 256);
    number = spop_negotiate_max_frame_size(SPOP_AGREED_FRAME, 255, &at);
    answered("negotiate_max_frame_size of 255", number, at, SPOP_SIZE_TOO_SMALL, 0);
    check("negotiate_version without a 2", !spop_negotiate_version(old, 7, version) && version[0] == 7 && version[2] == 7);
    check("negotiate_version of a release candidate", !spop_negotiate_version(candidates, 7, version) && version[0] == 7);
    check("negotiate_version", spop_negotiate_version(announced, 8, version) && version[0] == 2 && version[1] == 0 &&
          version[2] == 0);
    check("negotiate_version of a candidate above it", spop_negotiate_version(candidates, 8, version) && version[0] == 2);
}

int main(void)
{
    numbers();
    texts();
    values();
    pairs();
    for (size_t i = 0; i < SPOP_COUNT(readings); i++)
        read_one(&readings[i]);
    read_buffers();
    agents();
    kv();
    actions();
    notify();
    hello();
    return checked();
}
