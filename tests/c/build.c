/* The builder and the walk of spop_build.h: values of every kind built, written, read back and met in order; memory that is exactly
 * full, and one over. The bytes are worked out from docs/RULES.md. */
#include "check.h"

static const uint8_t ipv4[] = {192, 0, 2, 1};
static const uint8_t ipv6[] = {0x20, 0x01, 0x0d, 0xb8, 0, 0, 0, 0, 0, 0, 0, 0, 0, 0, 0, 1};
static const uint8_t binary[] = {0x00, 0xff};

/* Pairs of every kind, as they are written. */
#define MAX_64 "fff0fefefefefefefe0e"
#define EVERY_KIND "01 6e 00 01 62 11 01 63 01 01 69 02 " MAX_64 " 01 75 03 fff0fefe7e 01 6a 04 f6c3fefefefefefefe0e " \
                   "01 76 05 " MAX_64 " 01 34 06 c0000201 01 36 07 20010db8000000000000000000000001 " \
                   "01 73 08 02 c3a9 01 78 09 02 00ff 01 65 08 00 01 79 09 00"
enum { KINDS = 13, KINDS_POOL = KINDS + 4 + 16 + 2 + 2 };

static void add_every_kind(struct spop_builder *b)
{
    spop_add_null(b, "n");
    spop_add_bool(b, "b", true);
    spop_add_bool(b, "c", false);
    spop_add_i32(b, "i", -1);
    spop_add_u32(b, "u", UINT32_MAX);
    spop_add_i64(b, "j", -730);
    spop_add_u64(b, "v", UINT64_MAX);
    spop_add_ipv4(b, "4", ipv4);
    spop_add_ipv6(b, "6", ipv6);
    spop_add_string(b, "s", "\xc3\xa9");
    spop_add_binary(b, "x", binary, sizeof binary);
    spop_add_string(b, "e", "");
    spop_add_binary(b, "y", NULL, 0);
}

/* How many of the getters say yes. */
static int yes(struct spop_data data)
{
    bool truth;
    int32_t i32;
    uint32_t u32;
    int64_t i64;
    uint64_t u64;
    uint8_t address[16];
    struct spop_bytes bytes;

    return spop_is_null(data) + spop_as_bool(data, &truth) + spop_as_i32(data, &i32) + spop_as_u32(data, &u32) +
           spop_as_i64(data, &i64) + spop_as_u64(data, &u64) + spop_as_ipv4(data, address) + spop_as_ipv6(data, address) +
           spop_as_string(data, &bytes) + spop_as_binary(data, &bytes);
}

/* The walk's next argument, by its key; exactly one getter takes it. */
static struct spop_data next(struct spop_walk *w, const char *key)
{
    check(key, spop_next_argument(w) && spop_bytes_are(w->key, key));
    check("one getter says yes", yes(w->value) == 1);
    check("no flags", w->value.flags == 0);
    return w->value;
}

static void meets_every_kind(struct spop_walk *w)
{
    bool truth = false;
    int32_t i32 = 0;
    uint32_t u32 = 0;
    int64_t i64 = 0;
    uint64_t u64 = 0;
    uint8_t address[16];
    struct spop_bytes bytes = spop_bytes_of(NULL, 0);

    check("null", spop_is_null(next(w, "n")));
    check("true", spop_as_bool(next(w, "b"), &truth) && truth);
    check("false", spop_as_bool(next(w, "c"), &truth) && !truth);
    check("i32", spop_as_i32(next(w, "i"), &i32) && i32 == -1);
    check("u32", spop_as_u32(next(w, "u"), &u32) && u32 == UINT32_MAX);
    check("i64", spop_as_i64(next(w, "j"), &i64) && i64 == -730);
    check("u64", spop_as_u64(next(w, "v"), &u64) && u64 == UINT64_MAX);
    check("IPv4", spop_as_ipv4(next(w, "4"), address) && memcmp(address, ipv4, 4) == 0);
    check("IPv6", spop_as_ipv6(next(w, "6"), address) && memcmp(address, ipv6, 16) == 0);
    check("string", spop_as_string(next(w, "s"), &bytes) && spop_bytes_are(bytes, "\xc3\xa9"));
    check("binary", spop_as_binary(next(w, "x"), &bytes) && spop_bytes_equal(bytes, spop_bytes_of(binary, sizeof binary)));
    check("empty string", spop_as_string(next(w, "e"), &bytes) && bytes.len == 0);
    check("empty binary", spop_as_binary(next(w, "y"), &bytes) && bytes.len == 0);
    check("the last argument", !spop_next_argument(w) && w->index == w->end_pair - 1);
}

/* A builder over memory of exactly such sizes. */
struct lent {
    struct spop_builder b;
    size_t pool_room;
    void *pool;
    struct spop_message *messages;
    struct spop_pair *pairs;
    struct spop_action *actions;
};

static void lend(struct lent *l, size_t pool, size_t messages, size_t pairs, size_t actions)
{
    l->pool_room = pool;
    l->pool = exactly(pool);
    l->messages = (struct spop_message *)exactly(messages * sizeof *l->messages);
    l->pairs = (struct spop_pair *)exactly(pairs * sizeof *l->pairs);
    l->actions = (struct spop_action *)exactly(actions * sizeof *l->actions);
    spop_builder_init(&l->b, spop_room_of(l->pool, pool));
    spop_lend_messages(&l->b, l->messages, messages);
    spop_lend_pairs(&l->b, l->pairs, pairs);
    spop_lend_actions(&l->b, l->actions, actions);
}

static void give_back(struct lent *l)
{
    free(l->pool);
    free(l->messages);
    free(l->pairs);
    free(l->actions);
}

/* Three messages, the second of which has no name and no argument. */
static void notify_of_every_kind(void)
{
    struct lent l;
    struct spop_message messages[3];
    struct spop_pair pairs[1 + KINDS];
    struct spop_frame frame;
    struct spop_walk w;
    uint8_t out[133];
    uint64_t at, number;
    int count = 0;

    lend(&l, 6 + 4 + 1 + KINDS_POOL, 3, 1 + KINDS, 0);
    check("add_message", spop_add_message(&l.b, "upload") == SPOP_DONE);
    check("add_u32", spop_add_u32(&l.b, "slot", 3) == SPOP_DONE);
    spop_add_message_bytes(&l.b, spop_bytes_of(NULL, 0));
    spop_add_message(&l.b, "k");
    add_every_kind(&l.b);
    check("the pool is exactly full", l.b.pool_used == l.pool_room && l.b.refusal == SPOP_DONE);
    number = spop_build_notify(&l.b, spop_ids_of(1, 2), spop_room_of(out, sizeof out), 129, &at);
    answered("build_notify", number, at, SPOP_DONE, 133);
    check("build_notify writes", is_hex(out, at, "00000081 03 00000001 01 02 06 75706c6f6164 01 04 736c6f74 03 03 00 00 01 6b 0d "
                                        EVERY_KIND));

    spop_frame_init(&frame, messages, SPOP_COUNT(messages), pairs, SPOP_COUNT(pairs));
    w = spop_walk_over(&frame);
    check("no frame has no message and no argument", !spop_next_message(&w) && !spop_next_argument(&w));
    number = spop_frame_read(&frame, spop_bytes_of(out, sizeof out), 129, &at);
    answered("frame_read", number, at, SPOP_DONE, 133);
    check("frame_read's head", frame.head.type == SPOP_NOTIFY && frame.head.stream_id == 1 && frame.head.frame_id == 2);
    number = spop_frame_read(&frame, spop_bytes_of(out, 132), 129, &at);
    answered("frame_read of a cut frame", number, at, SPOP_WAIT, 1);
    number = spop_frame_read(&frame, spop_bytes_of("\0\0\0\0", 4), 129, &at);
    answered("frame_read of no frame", number, at, SPOP_TOO_SOON, 4);
    check("frame_read refused leaves the frame", frame.head.pair_count == 1 + KINDS && frame.bytes.start == out &&
          frame.bytes.len == 133);

    w = spop_walk_over(&frame);
    check("the first message", spop_next_message(&w) && spop_bytes_are(w.name, "upload"));
    check("its argument", spop_next_argument(&w) && spop_bytes_are(w.key, "slot") && w.value.number == 3 && w.index == 0);
    check("its end", !spop_next_argument(&w));
    check("the second message", spop_next_message(&w) && w.name.len == 0 && !spop_next_argument(&w));
    check("the third message", spop_next_message(&w) && spop_bytes_are(w.name, "k"));
    meets_every_kind(&w);
    check("no fourth message", !spop_next_message(&w));

    w = spop_walk_over(&frame);
    check("a message left before its end", spop_next_message(&w) && spop_next_message(&w) && spop_next_message(&w) &&
          spop_next_argument(&w) && w.index == 1);
    w = spop_walk_over(&frame);
    while (spop_next_argument(&w))
        check("all arguments in a row", w.index == (uint64_t)count++);
    check("so many arguments", count == 1 + KINDS);
    give_back(&l);
}

static void kv_of_every_kind(void)
{
    struct lent l;
    struct spop_pair pairs[KINDS];
    struct spop_frame frame;
    struct spop_walk w;
    struct spop_bytes bytes = spop_bytes_of(NULL, 1);
    uint8_t out[113];
    uint64_t at, number;
    uint32_t n = 0;

    lend(&l, KINDS_POOL, 0, KINDS, 0);
    add_every_kind(&l.b);
    number = spop_build_kv(&l.b, SPOP_HAPROXY_HELLO, spop_room_of(out, sizeof out), 109, &at);
    answered("build_kv", number, at, SPOP_DONE, 113);
    check("build_kv writes", is_hex(out, at, "0000006d 01 00000001 00 00 " EVERY_KIND));
    number = spop_build_kv(&l.b, SPOP_ACK, spop_room_of(out, sizeof out), 109, &at);
    answered("build_kv of an ACK", number, at, SPOP_NOT_WRITABLE, 0);

    spop_frame_init(&frame, NULL, 0, pairs, SPOP_COUNT(pairs));
    number = spop_frame_read(&frame, spop_bytes_of(out, sizeof out), 109, &at);
    answered("frame_read of a hello", number, at, SPOP_DONE, 113);
    w = spop_walk_over(&frame);
    check("a hello has no message", !spop_next_message(&w));
    meets_every_kind(&w);
    check("frame_get of a hello's pair", spop_as_u32(spop_frame_get(&frame, "u"), &n) && n == UINT32_MAX);
    check("frame_get of its last pair", spop_as_binary(spop_frame_get(&frame, "y"), &bytes) && bytes.len == 0);
    check("frame_get without such a pair", spop_is_null(spop_frame_get(&frame, "us")) && spop_is_null(spop_frame_get(&frame, "")));
    give_back(&l);
}

static void ack_of_every_kind(void)
{
    struct lent l;
    uint8_t out[256];
    uint64_t at, number;

    lend(&l, KINDS_POOL, 0, 0, KINDS);
    spop_set_null(&l.b, SPOP_SCOPE_PROCESS, "n");
    spop_set_bool(&l.b, SPOP_SCOPE_SESSION, "b", true);
    spop_set_bool(&l.b, SPOP_SCOPE_TRANSACTION, "c", false);
    spop_set_i32(&l.b, SPOP_SCOPE_REQUEST, "i", -1);
    spop_set_u32(&l.b, SPOP_SCOPE_RESPONSE, "u", UINT32_MAX);
    spop_set_i64(&l.b, SPOP_SCOPE_PROCESS, "j", -730);
    spop_set_u64(&l.b, SPOP_SCOPE_PROCESS, "v", UINT64_MAX);
    spop_set_ipv4(&l.b, SPOP_SCOPE_PROCESS, "4", ipv4);
    spop_set_ipv6(&l.b, SPOP_SCOPE_PROCESS, "6", ipv6);
    spop_set_string(&l.b, SPOP_SCOPE_PROCESS, "s", "\xc3\xa9");
    spop_set_binary(&l.b, SPOP_SCOPE_PROCESS, "x", binary, sizeof binary);
    check("unset", spop_unset(&l.b, SPOP_SCOPE_RESPONSE, "e") == SPOP_DONE);
    check("unset_var", spop_unset_var(&l.b, SPOP_SCOPE_TRANSACTION, spop_bytes_of("y", 1)) == SPOP_DONE);
    number = spop_build_ack(&l.b, spop_ids_of(1, 2), spop_room_of(out, sizeof out), SPOP_AGREED_FRAME, &at);
    answered("build_ack", number, at, SPOP_DONE, 4 + 7 + 94 + 11 * 3 + 2 * 5);
    check("build_ack writes",
          is_hex(out, at, "00000090 67 00000001 01 02 01 03 00 01 6e 00 01 03 01 01 62 11 01 03 02 01 63 01 "
                 "01 03 03 01 69 02 " MAX_64 " 01 03 04 01 75 03 fff0fefe7e 01 03 00 01 6a 04 f6c3fefefefefefefe0e "
                 "01 03 00 01 76 05 " MAX_64 " 01 03 00 01 34 06 c0000201 01 03 00 01 36 07 20010db8000000000000000000000001 "
                 "01 03 00 01 73 08 02 c3a9 01 03 00 01 78 09 02 00ff 02 02 04 01 65 02 02 02 01 79"));
    check("an action over the table's room", spop_set_null(&l.b, SPOP_SCOPE_PROCESS, "z") == SPOP_TABLE_FULL);
    number = spop_build_ack(&l.b, spop_ids_of(1, 2), spop_room_of(out, sizeof out), SPOP_AGREED_FRAME, &at);
    answered("build_ack after that", number, at, SPOP_TABLE_FULL, KINDS);
    spop_builder_clear(&l.b);
    check("add_action", spop_add_action(&l.b, 3, SPOP_SCOPE_PROCESS, spop_text_of("n"), spop_data_null()) == SPOP_DONE);
    number = spop_build_ack(&l.b, spop_ids_of(1, 2), spop_room_of(out, sizeof out), SPOP_AGREED_FRAME, &at);
    answered("build_ack of action 3", number, at, SPOP_NOT_WRITABLE, 0);
    spop_builder_clear(&l.b);
    spop_set_null(&l.b, 5, "n");
    number = spop_build_ack(&l.b, spop_ids_of(1, 2), spop_room_of(out, sizeof out), SPOP_AGREED_FRAME, &at);
    answered("build_ack of scope 5", number, at, SPOP_NOT_WRITABLE, 0);
    give_back(&l);
}

/* One call for every type: it writes what the type's own call writes. */
static void by_type(void)
{
    struct lent l;
    uint8_t out[64], other[64];
    uint64_t at, number;

    lend(&l, 16, 1, 1, 1);
    spop_add_message(&l.b, "m");
    spop_add_u32(&l.b, "k", 7);
    number = spop_write(&l.b, SPOP_NOTIFY, spop_ids_of(1, 2), spop_room_of(out, sizeof out), SPOP_AGREED_FRAME, &at);
    answered("write of a NOTIFY", number, at, SPOP_DONE, 18);
    check("write of a NOTIFY writes", is_hex(out, at, "0000000e 03 00000001 01 02 01 6d 01 01 6b 03 07"));
    number = spop_write(&l.b, SPOP_ACK, spop_ids_of(1, 2), spop_room_of(out, sizeof out), SPOP_AGREED_FRAME, &at);
    answered("write of an ACK of arguments", number, at, SPOP_NOT_WRITABLE, 0);
    spop_builder_clear(&l.b);
    spop_set_u32(&l.b, SPOP_SCOPE_REQUEST, "k", 7);
    number = spop_write(&l.b, SPOP_ACK, spop_ids_of(1, 2), spop_room_of(out, sizeof out), SPOP_AGREED_FRAME, &at);
    answered("write of an ACK", number, at, SPOP_DONE, 18);
    check("write of an ACK writes", is_hex(out, at, "0000000e 67 00000001 01 02 01 03 03 01 6b 03 07"));
    spop_builder_clear(&l.b);
    spop_add_u32(&l.b, "k", 7);
    number = spop_write(&l.b, SPOP_AGENT_HELLO, spop_ids_of(0, 0), spop_room_of(out, sizeof out), SPOP_AGREED_FRAME, &at);
    answered("write of an AGENT-HELLO", number, at, SPOP_DONE, 15);
    check("write of an AGENT-HELLO writes", is_hex(out, at, "0000000b 65 00000001 00 00 01 6b 03 07"));
    memcpy(other, out, sizeof out);
    number = spop_write(&l.b, SPOP_AGENT_HELLO, spop_ids_of(1, 0), spop_room_of(out, sizeof out), SPOP_AGREED_FRAME, &at);
    answered("write of an AGENT-HELLO with a stream id", number, at, SPOP_NOT_WRITABLE, 0);
    number = spop_write(&l.b, SPOP_AGENT_HELLO, spop_ids_of(0, 1), spop_room_of(out, sizeof out), SPOP_AGREED_FRAME, &at);
    answered("write of an AGENT-HELLO with a frame id", number, at, SPOP_NOT_WRITABLE, 0);
    number = spop_write(&l.b, 4, spop_ids_of(0, 0), spop_room_of(out, sizeof out), SPOP_AGREED_FRAME, &at);
    answered("write of type 4", number, at, SPOP_NOT_WRITABLE, 0);
    check("a refused write changes nothing", memcmp(other, out, sizeof out) == 0);
    give_back(&l);
}

/* Each kind of data is what its getter gives back, and a pair's value is what its numbers say. */
static void data(void)
{
    static const struct spop_pair pair = {0, 1, SPOP_KIND_BINARY, 2, 2, 15}, outside = {0, 1, SPOP_KIND_BINARY, 2, 3, 0};
    struct spop_bytes bytes = spop_bytes_of("k:\0\xff", 4), part;
    struct spop_data given;
    bool truth = true;
    int32_t i32 = 0;
    uint32_t u32 = 0;
    int64_t i64 = 0;
    uint64_t u64 = 0;
    uint8_t address[16];

    check("data_null", spop_is_null(spop_data_null()) && yes(spop_data_null()) == 1);
    check("data_bool", spop_as_bool(spop_data_bool(false), &truth) && !truth && yes(spop_data_bool(true)) == 1);
    check("data_i32", spop_as_i32(spop_data_i32(INT32_MIN), &i32) && i32 == INT32_MIN && yes(spop_data_i32(0)) == 1);
    check("data_u32", spop_as_u32(spop_data_u32(UINT32_MAX), &u32) && u32 == UINT32_MAX && yes(spop_data_u32(0)) == 1);
    check("data_i64", spop_as_i64(spop_data_i64(INT64_MIN), &i64) && i64 == INT64_MIN && yes(spop_data_i64(0)) == 1);
    check("data_u64", spop_as_u64(spop_data_u64(UINT64_MAX), &u64) && u64 == UINT64_MAX && yes(spop_data_u64(0)) == 1);
    check("data_ipv4", spop_as_ipv4(spop_data_ipv4(ipv4), address) && memcmp(address, ipv4, 4) == 0 &&
          yes(spop_data_ipv4(ipv4)) == 1);
    check("data_ipv6", spop_as_ipv6(spop_data_ipv6(ipv6), address) && memcmp(address, ipv6, 16) == 0 &&
          yes(spop_data_ipv6(ipv6)) == 1);
    check("data_string", spop_as_string(spop_data_string(bytes), &part) && part.len == 4 && yes(spop_data_string(bytes)) == 1);
    check("data_binary", spop_as_binary(spop_data_binary(bytes), &part) && part.len == 4 && yes(spop_data_binary(bytes)) == 1);
    check("an address of another length", yes(spop_data_of(SPOP_KIND_IPV4, 0, bytes)) == 1 &&
          yes(spop_data_of(SPOP_KIND_IPV4, 0, spop_bytes_of("abc", 3))) == 0 && yes(spop_data_of(SPOP_KIND_IPV6, 0, bytes)) == 0);
    check("data of kind 10", yes(spop_data_of(10, 0, bytes)) == 0);
    check("has_bytes", spop_has_bytes(SPOP_KIND_IPV4) && spop_has_bytes(SPOP_KIND_BINARY) && !spop_has_bytes(SPOP_KIND_U64) &&
          !spop_has_bytes(10));
    given = spop_pair_data(bytes, &pair);
    check("pair_data", given.kind == SPOP_KIND_BINARY && given.flags == 15 && given.bytes.start == bytes.start + 2 &&
          given.bytes.len == 2);
    check("pair_data outside", spop_pair_data(bytes, &outside).bytes.len == 0);
}

static void add_upload(struct spop_builder *b)
{
    spop_add_message(b, "upload");
    spop_add_u32(b, "slot", 3);
    spop_add_i64(b, "delay", 1250);
    spop_add_u32(b, "slot", 17);
    spop_add_i64(b, "delay", -730);
}
enum { UPLOAD_POOL = 6 + 4 + 5 + 4 + 5 };

static void is_upload(const struct spop_builder *b, const char *what)
{
    uint8_t out[64];
    uint64_t at;
    uint64_t number = spop_build_notify(b, spop_ids_of(1, 1), spop_room_of(out, sizeof out), 55, &at);

    answered(what, number, at, SPOP_DONE, 59);
    check(what, is_hex(out, at, UPLOAD));
}

/* The first argument with a key that is met twice, and the keys of no frame. */
static void get_upload(void)
{
    struct spop_message messages[1];
    struct spop_pair pairs[4];
    struct spop_frame frame;
    uint8_t upload[59];
    int64_t delay = 0;
    uint32_t slot = 0;
    uint64_t at, number;

    spop_frame_init(&frame, messages, SPOP_COUNT(messages), pairs, SPOP_COUNT(pairs));
    check("frame_get without a frame", spop_is_null(spop_frame_get(&frame, "slot")));
    number = spop_frame_read(&frame, spop_bytes_of(upload, from_hex(UPLOAD, upload)), 55, &at);
    answered("frame_read of an upload", number, at, SPOP_DONE, 59);
    check("frame_get of a slot", spop_as_u32(spop_frame_get(&frame, "slot"), &slot) && slot == 3);
    check("frame_get of a delay", spop_as_i64(spop_frame_get(&frame, "delay"), &delay) && delay == 1250);
}

/* What one over some room is: the upload fills it, and then comes one more. */
enum more { A_MESSAGE, A_PAIR, A_KEY, A_TEXT, A_KEY_AND_TEXT, AN_ADDRESS };

static uint64_t add_more(struct spop_builder *b, enum more more)
{
    switch (more) {
    case A_MESSAGE: return spop_add_message(b, "");
    case A_PAIR: return spop_add_null(b, "");
    case A_KEY: return spop_add_null(b, "k");
    case A_TEXT: return spop_add_string(b, "", "t");
    case A_KEY_AND_TEXT: return spop_add_string(b, "k", "t");
    default: return spop_add_ipv6(b, "", ipv6);
    }
}

/* One more where pool, messages or pairs are full: it is refused and kept, takes nothing of what was added, and can be forgotten. */
static void one_over(const char *what, size_t pool, size_t messages, size_t pairs, enum more more, uint64_t should,
                     uint64_t should_at)
{
    struct lent l;
    uint8_t out[64];
    uint64_t at, number;

    lend(&l, pool, messages, pairs, 0);
    add_upload(&l.b);
    is_upload(&l.b, what);
    check(what, add_more(&l.b, more) == should && l.b.refusal == should && l.b.message_count == 1 && l.b.pair_count == 4 &&
          l.b.pool_used == UPLOAD_POOL && l.messages->pair_count == 4);
    check("a refusal is kept", spop_add_null(&l.b, "") == should && spop_add_message(&l.b, "") == should && l.b.pair_count == 4 &&
          l.b.message_count == 1);
    memset(out, 0xaa, sizeof out);
    number = spop_build_notify(&l.b, spop_ids_of(1, 1), spop_room_of(out, sizeof out), 55, &at);
    answered(what, number, at, should, should_at);
    check("a refused frame writes nothing", is_all(out, sizeof out, 0xaa));
    spop_builder_go_on(&l.b);
    is_upload(&l.b, "what was added before is all there");
    spop_builder_clear(&l.b);
    add_upload(&l.b);
    is_upload(&l.b, "a builder that starts over");
    give_back(&l);
}

/* With one less than the upload needs, the frame is refused at the record that has no room. */
static void one_less(const char *what, size_t pool, size_t messages, size_t pairs, uint64_t should, uint64_t should_at)
{
    struct lent l;
    uint8_t out[64];
    uint64_t at, number;

    lend(&l, pool, messages, pairs, 0);
    add_upload(&l.b);
    number = spop_build_notify(&l.b, spop_ids_of(1, 1), spop_room_of(out, sizeof out), 55, &at);
    answered(what, number, at, should, should_at);
    give_back(&l);
}

static void without_memory(void)
{
    struct spop_builder b;
    struct spop_pair pairs[2];
    uint8_t out[16];
    uint64_t at, number;

    spop_builder_init(&b, spop_room_of(NULL, 9));
    number = spop_build_notify(&b, spop_ids_of(0, 0), spop_room_of(out, sizeof out), 7, &at);
    answered("a NOTIFY of nothing", number, at, SPOP_DONE, 11);
    number = spop_build_kv(&b, SPOP_AGENT_HELLO, spop_room_of(out, sizeof out), 7, &at);
    answered("a hello of nothing", number, at, SPOP_DONE, 11);
    number = spop_build_ack(&b, spop_ids_of(0, 0), spop_room_of(out, sizeof out), 7, &at);
    answered("an ACK of nothing", number, at, SPOP_DONE, 11);
    check("no table of messages", spop_add_message(&b, "") == SPOP_TABLE_FULL);
    spop_builder_clear(&b);
    check("no table of pairs", spop_add_null(&b, "") == SPOP_TABLE_FULL);
    spop_builder_clear(&b);
    check("no table of actions", spop_unset(&b, SPOP_SCOPE_PROCESS, "") == SPOP_TABLE_FULL);
    spop_lend_messages(&b, NULL, 3);
    spop_lend_pairs(&b, NULL, 3);
    spop_lend_actions(&b, NULL, 3);
    spop_builder_clear(&b);
    check("null that is said to be a table", spop_add_message(&b, "") == SPOP_TABLE_FULL);
    spop_builder_clear(&b);
    check("null that is said to be a table of pairs", spop_add_null(&b, "") == SPOP_TABLE_FULL);
    spop_builder_clear(&b);
    check("null that is said to be a table of actions", spop_unset(&b, SPOP_SCOPE_PROCESS, "") == SPOP_TABLE_FULL);
    spop_builder_clear(&b);
    spop_lend_pairs(&b, pairs, 2);
    check("no pool, and an empty key", spop_add_null(&b, "") == SPOP_DONE);
    check("no pool, and a key", spop_add_null(&b, "k") == SPOP_NO_ROOM);
}

/* Bytes that are null, kinds that there are none of, and lengths that no pool has. */
static void wrong_bytes(void)
{
    struct lent l;
    struct spop_data wrong = spop_data_of(10, 0, spop_bytes_of(NULL, 5)), kept = spop_data_u32(7);
    uint8_t out[64];
    uint64_t at, number;

    lend(&l, 8, 1, 2, 2);
    check("a key that is null", spop_add_pair(&l.b, spop_bytes_of(NULL, 1), spop_data_null()) == SPOP_OUTSIDE &&
          l.b.pair_count == 0);
    spop_builder_clear(&l.b);
    check("binary that is null", spop_add_binary(&l.b, "x", NULL, 1) == SPOP_OUTSIDE && l.b.pool_used == 0);
    spop_builder_clear(&l.b);
    check("a message's name that is null", spop_add_message_bytes(&l.b, spop_bytes_of(NULL, 1)) == SPOP_OUTSIDE);
    spop_builder_clear(&l.b);
    check("a length that no pool has", spop_add_pair(&l.b, spop_text_of("x"), spop_data_binary(spop_bytes_of("y", SIZE_MAX))) ==
          SPOP_NO_ROOM);
    spop_builder_clear(&l.b);
    check("a key's length that no pool has", spop_add_pair(&l.b, spop_bytes_of("y", SIZE_MAX), spop_data_null()) == SPOP_NO_ROOM);
    spop_builder_clear(&l.b);

    check("kind 10", spop_add_pair(&l.b, spop_text_of("x"), wrong) == SPOP_DONE);
    number = spop_build_kv(&l.b, SPOP_HAPROXY_HELLO, spop_room_of(out, sizeof out), 64, &at);
    answered("build_kv of kind 10", number, at, SPOP_NOT_WRITABLE, 0);
    spop_builder_clear(&l.b);
    spop_add_null(&l.b, "x");
    spop_add_string(&l.b, "y", "\xff");
    number = spop_build_kv(&l.b, SPOP_HAPROXY_HELLO, spop_room_of(out, sizeof out), 64, &at);
    answered("build_kv of what is no text", number, at, SPOP_NOT_TEXT, 1);
    spop_builder_clear(&l.b);
    spop_add_pair(&l.b, spop_bytes_of("\0", 1), spop_data_string(spop_bytes_of("a\0b", 3)));
    number = spop_build_kv(&l.b, SPOP_HAPROXY_HELLO, spop_room_of(out, sizeof out), 64, &at);
    answered("build_kv of texts with a 0 in them", number, at, SPOP_DONE, 18);
    check("it writes them whole", is_hex(out, at, "0000000e 01 00000001 00 00 01 00 08 03 610062"));
    spop_builder_clear(&l.b);
    kept.flags = 2;
    spop_set_var(&l.b, SPOP_SCOPE_TRANSACTION, spop_text_of("x"), kept);
    number = spop_build_ack(&l.b, spop_ids_of(0, 0), spop_room_of(out, sizeof out), 64, &at);
    answered("build_ack of a value with flags", number, at, SPOP_DONE, 18);
    check("it writes the flags", is_hex(out, at, "0000000e 67 00000001 00 00 01 03 02 01 78 23 07"));
    give_back(&l);
}

/* What has no place in a frame is refused, and not left out. */
static void out_of_place(void)
{
    struct lent l;
    struct spop_message other_messages[1];
    struct spop_pair other_pairs[1];
    struct spop_action other_actions[1];
    uint8_t out[64];
    struct spop_room room = spop_room_of(out, sizeof out);
    uint64_t at, number;

    lend(&l, 16, 1, 2, 1);
    spop_unset(&l.b, SPOP_SCOPE_PROCESS, "x");
    number = spop_build_notify(&l.b, spop_ids_of(0, 0), room, 64, &at);
    answered("a NOTIFY with an action", number, at, SPOP_NOT_WRITABLE, 0);
    number = spop_build_kv(&l.b, SPOP_AGENT_HELLO, room, 64, &at);
    answered("a hello with an action", number, at, SPOP_NOT_WRITABLE, 0);
    spop_builder_clear(&l.b);
    spop_add_message(&l.b, "m");
    number = spop_build_kv(&l.b, SPOP_AGENT_HELLO, room, 64, &at);
    answered("a hello with a message", number, at, SPOP_NOT_WRITABLE, 0);
    number = spop_build_ack(&l.b, spop_ids_of(0, 0), room, 64, &at);
    answered("an ACK with a message", number, at, SPOP_NOT_WRITABLE, 0);
    spop_builder_clear(&l.b);
    spop_add_null(&l.b, "k");
    number = spop_build_ack(&l.b, spop_ids_of(0, 0), room, 64, &at);
    answered("an ACK with a pair", number, at, SPOP_NOT_WRITABLE, 0);
    number = spop_build_notify(&l.b, spop_ids_of(0, 0), room, 64, &at);
    answered("a NOTIFY with a pair and no message", number, at, SPOP_NOT_WRITABLE, 0);
    spop_add_message(&l.b, "m");
    number = spop_build_notify(&l.b, spop_ids_of(0, 0), room, 64, &at);
    answered("a NOTIFY with a pair before its message", number, at, SPOP_NOT_WRITABLE, 0);
    spop_builder_clear(&l.b);
    spop_add_message(&l.b, "m");
    spop_add_null(&l.b, "k");
    spop_unset(&l.b, SPOP_SCOPE_PROCESS, "x");
    spop_lend_pairs(&l.b, other_pairs, 1);
    spop_lend_actions(&l.b, other_actions, 1);
    check("another table has no records", l.b.message_count == 1 && l.b.pair_count == 0 && l.b.action_count == 0);
    number = spop_build_notify(&l.b, spop_ids_of(0, 0), room, 64, &at);
    answered("a NOTIFY whose pairs were forgotten", number, at, SPOP_NOT_WRITABLE, 0);
    spop_lend_messages(&l.b, other_messages, 1);
    number = spop_build_notify(&l.b, spop_ids_of(0, 0), room, 64, &at);
    answered("a NOTIFY of which all was forgotten", number, at, SPOP_DONE, 11);
    give_back(&l);
}

static void too_many(void)
{
    struct lent l;
    static uint8_t out[1024];
    struct spop_room room = spop_room_of(out, sizeof out);
    uint64_t at, number;

    lend(&l, 1, 2, 257, 0);
    spop_add_message(&l.b, "");
    spop_add_message(&l.b, "m");
    for (int i = 0; i < 255; i++)
        spop_add_null(&l.b, "");
    number = spop_build_notify(&l.b, spop_ids_of(0, 0), room, 522, &at);
    answered("255 arguments", number, at, SPOP_DONE, 526);
    number = spop_build_notify(&l.b, spop_ids_of(0, 0), room, 521, &at);
    answered("255 arguments over the limit", number, at, SPOP_OVER_LIMIT, 0);
    number = spop_build_notify(&l.b, spop_ids_of(0, 0), spop_room_of(out, 525), 522, &at);
    answered("255 arguments without room", number, at, SPOP_NO_ROOM, 0);
    spop_add_null(&l.b, "");
    number = spop_build_notify(&l.b, spop_ids_of(0, 0), room, 1024, &at);
    answered("256 arguments", number, at, SPOP_TOO_MANY, 1);
    give_back(&l);
}

/* Puts the arguments that are next behind a text. */
static void put_arguments(struct spop_walk *w, char *text, size_t room)
{
    while (spop_next_argument(w))
        snprintf(text + strlen(text), room - strlen(text), "%.*s%u ", (int)w->key.len, (const char *)w->key.start,
                 (unsigned)w->value.number);
}

/* A frame that the walk over a buffer is at: its head and bytes, and its arguments as text. */
static void walked(struct spop_frames *f, uint64_t type, uint64_t frame_id, uint64_t start, uint64_t len, const char *should)
{
    char text[64] = "";
    struct spop_walk w;

    check("next_frame", spop_next_frame(f) && f->frame.head.type == type && f->frame.head.flags == SPOP_FIN &&
          f->frame.head.stream_id == 0 && f->frame.head.frame_id == frame_id);
    check("next_frame's bytes", f->frame.bytes.start == f->input.start + start && f->frame.bytes.len == len);
    w = spop_walk_over(&f->frame);
    while (spop_next_message(&w)) {
        snprintf(text + strlen(text), sizeof text - strlen(text), "%.*s:", (int)w.name.len, (const char *)w.name.start);
        put_arguments(&w, text, sizeof text);
    }
    put_arguments(&w, text, sizeof text);
    check(should, strcmp(text, should) == 0);
}

/* Frames of all sorts between each other: a NOTIFY of three messages, of which the last has no argument, a KV list, one without a
 * message, one more KV list, and a NOTIFY again. */
static void walk_over_a_buffer(void)
{
    static const char hex[] = "0000001c 03 00000001 00 01 0161 01 01700301 0162 02 01710302 01720303 0163 00"
                              "0000000f 01 00000001 00 00 01730304 01740305" "00000007 03 00000001 00 02"
                              "00000007 02 00000001 00 00" "0000000e 03 00000001 00 03 0164 01 01750306" "000000";
    uint8_t input[128];
    struct spop_row rows[5];
    struct spop_message messages[4];
    struct spop_pair pairs[6];
    struct spop_frames f;
    uint64_t at, number;
    size_t len = from_hex(hex, input);

    spop_frames_init(&f, rows, SPOP_COUNT(rows), messages, SPOP_COUNT(messages), pairs, SPOP_COUNT(pairs));
    check("no frames", !spop_next_frame(&f) && spop_frames_rest(&f).len == 0);
    for (int again = 0; again < 2; again++) {
        number = spop_frames_read(&f, spop_bytes_of(input, len), 64, &at);
        answered("frames_read", number, at, SPOP_WAIT, 1);
        check("frames_read counts", f.counts.frames == 5 && f.counts.messages == 4 && f.counts.pairs == 6 && f.counts.used == len - 3);
        check("frames_rest", spop_frames_rest(&f).start == input + len - 3 && spop_frames_rest(&f).len == 3);
        walked(&f, SPOP_NOTIFY, 1, 0, 32, "a:p1 b:q2 r3 c:");
        walked(&f, SPOP_HAPROXY_HELLO, 0, 32, 19, "s4 t5 ");
        walked(&f, SPOP_NOTIFY, 2, 51, 11, "");
        walked(&f, SPOP_HAPROXY_DISCONNECT, 0, 62, 11, "");
        walked(&f, SPOP_NOTIFY, 3, 73, 18, "d:u6 ");
        check("the last frame is the last", !spop_next_frame(&f) && f.frame.head.frame_id == 3);
    }
    spop_frames_init(&f, rows, 1, messages, SPOP_COUNT(messages), pairs, SPOP_COUNT(pairs));
    number = spop_frames_read(&f, spop_bytes_of(input, len), 64, &at);
    answered("frames_read with a row", number, at, SPOP_TABLE_FULL, 19);
    walked(&f, SPOP_NOTIFY, 1, 0, 32, "a:p1 b:q2 r3 c:");
    check("frames_read with a row reads one", !spop_next_frame(&f) && spop_frames_rest(&f).start == input + 32);
    number = spop_frames_read(&f, spop_frames_rest(&f), 64, &at);
    answered("frames_read of the rest", number, at, SPOP_TABLE_FULL, 11);
    walked(&f, SPOP_HAPROXY_HELLO, 0, 0, 19, "s4 t5 ");
    spop_frames_init(&f, NULL, 1, NULL, 1, NULL, 1);
    number = spop_frames_read(&f, spop_bytes_of(input, len), 64, &at);
    answered("frames_read into null", number, at, SPOP_TABLE_FULL, 14);
}

int main(void)
{
    data();
    notify_of_every_kind();
    kv_of_every_kind();
    ack_of_every_kind();
    by_type();
    get_upload();
    one_over("a message over the table's room", UPLOAD_POOL, 1, 4, A_MESSAGE, SPOP_TABLE_FULL, 1);
    one_over("a pair over the table's room", UPLOAD_POOL, 1, 4, A_PAIR, SPOP_TABLE_FULL, 4);
    one_over("a key over the pool's room", UPLOAD_POOL, 1, 5, A_KEY, SPOP_NO_ROOM, 4);
    one_over("a text over the pool's room", UPLOAD_POOL, 1, 5, A_TEXT, SPOP_NO_ROOM, 4);
    one_over("a key that fits, and a text that then does not", UPLOAD_POOL + 1, 1, 5, A_KEY_AND_TEXT, SPOP_NO_ROOM, 4);
    one_over("an address one byte over the pool's room", UPLOAD_POOL + 15, 1, 5, AN_ADDRESS, SPOP_NO_ROOM, 4);
    one_less("a pool with one byte less", UPLOAD_POOL - 1, 1, 4, SPOP_NO_ROOM, 3);
    one_less("no room for the message", UPLOAD_POOL, 0, 4, SPOP_TABLE_FULL, 0);
    one_less("room for three pairs", UPLOAD_POOL, 1, 3, SPOP_TABLE_FULL, 3);
    without_memory();
    wrong_bytes();
    out_of_place();
    too_many();
    walk_over_a_buffer();
    return checked();
}
