/* The helpers of spop.h: each done and refused once, with null where something is empty, and with records in tables whose numbers
 * stand as the rules have them. */
#include "check.h"

enum { MARK = 0xaa };

/* Where a member of a record stands, in numbers. */
#define PLACE(record, member) (offsetof(struct record, member) / sizeof(uint64_t))

static void layout(void)
{
    check("a value", PLACE(spop_value, kind) == 0 && PLACE(spop_value, a) == 1 && PLACE(spop_value, b) == 2 &&
          PLACE(spop_value, flags) == 3 && sizeof(struct spop_value) == 32);
    check("a message", PLACE(spop_message, name_start) == 0 && PLACE(spop_message, name_len) == 1 &&
          PLACE(spop_message, first_pair) == 2 && PLACE(spop_message, pair_count) == 3 && sizeof(struct spop_message) == 32);
    check("a pair", PLACE(spop_pair, key_start) == 0 && PLACE(spop_pair, key_len) == 1 && PLACE(spop_pair, kind) == 2 &&
          PLACE(spop_pair, a) == 3 && PLACE(spop_pair, b) == 4 && PLACE(spop_pair, flags) == 5 && sizeof(struct spop_pair) == 48);
    check("an action", PLACE(spop_action, action) == 0 && PLACE(spop_action, scope) == 1 && PLACE(spop_action, name_start) == 2 &&
          PLACE(spop_action, name_len) == 3 && PLACE(spop_action, kind) == 4 && PLACE(spop_action, a) == 5 &&
          PLACE(spop_action, b) == 6 && PLACE(spop_action, flags) == 7 && sizeof(struct spop_action) == 64);
    check("a head", PLACE(spop_head, type) == 0 && PLACE(spop_head, flags) == 1 && PLACE(spop_head, stream_id) == 2 &&
          PLACE(spop_head, frame_id) == 3 && PLACE(spop_head, message_count) == 4 && PLACE(spop_head, pair_count) == 5 &&
          sizeof(struct spop_head) == 48);
    check("a row", PLACE(spop_row, start) == 0 && PLACE(spop_row, used) == 1 && PLACE(spop_row, type) == 2 &&
          PLACE(spop_row, stream_id) == 3 && PLACE(spop_row, frame_id) == 4 && PLACE(spop_row, first) == 5 &&
          PLACE(spop_row, count) == 6 && sizeof(struct spop_row) == 56);
    check("counts", PLACE(spop_counts, frames) == 0 && PLACE(spop_counts, messages) == 1 && PLACE(spop_counts, pairs) == 2 &&
          PLACE(spop_counts, used) == 3 && sizeof(struct spop_counts) == 32);
    check("an announced version", PLACE(spop_announced, major) == 0 && PLACE(spop_announced, minor) == 1 &&
          PLACE(spop_announced, patch) == 2 && PLACE(spop_announced, pre_release) == 3 && sizeof(struct spop_announced) == 32);
    check("a version", PLACE(spop_version, major) == 0 && PLACE(spop_version, minor) == 1 && PLACE(spop_version, patch) == 2 &&
          sizeof(struct spop_version) == 24);
}

static void bytes(void)
{
    static const char text[] = "slotslot";
    uint8_t memory[2];
    struct spop_bytes all = spop_text_of(text), none = spop_bytes_of(NULL, 0);
    struct spop_room room = spop_room_of(memory, sizeof memory);
    struct spop_ids ids = spop_ids_of(3, 4);
    struct spop_head head = {SPOP_NOTIFY, SPOP_FIN, 5, 6, 0, 0};

    check("a text's bytes", all.start == (const uint8_t *)text && all.len == 8);
    check("room", room.start == memory && room.len == 2);
    check("ids", ids.stream_id == 3 && ids.frame_id == 4);
    check("a head's ids", spop_head_ids(&head).stream_id == 5 && spop_head_ids(&head).frame_id == 6);
    check("bytes at a place", spop_bytes_at(all, 4, 4).start == all.start + 4 && spop_bytes_at(all, 4, 4).len == 4);
    check("bytes at the end", spop_bytes_at(all, 8, 0).len == 0);
    check("bytes one over", spop_bytes_at(all, 5, 4).start == NULL && spop_bytes_at(all, 5, 4).len == 0);
    check("bytes far outside", spop_bytes_at(all, UINT64_MAX, 2).len == 0 && spop_bytes_at(all, 2, UINT64_MAX).len == 0);
    check("bytes of null", spop_bytes_at(none, 0, 0).len == 0 && spop_bytes_at(spop_bytes_of(NULL, 9), 1, 2).len == 0);
    check("bytes behind", spop_bytes_behind(all, 3).start == all.start + 3 && spop_bytes_behind(all, 3).len == 5);
    check("bytes behind all", spop_bytes_behind(all, 8).len == 0 && spop_bytes_behind(all, 9).len == 0);
    check("equal bytes", spop_bytes_equal(spop_bytes_at(all, 0, 4), spop_bytes_at(all, 4, 4)));
    check("other bytes", !spop_bytes_equal(spop_bytes_at(all, 0, 4), spop_bytes_at(all, 1, 4)));
    check("bytes of other length", !spop_bytes_equal(all, spop_bytes_at(all, 0, 4)));
    check("no bytes are equal", spop_bytes_equal(none, spop_text_of("")));
    check("bytes are a text", spop_bytes_are(spop_bytes_at(all, 0, 4), "slot") && !spop_bytes_are(all, "slot"));
    check("SPOP_COUNT", SPOP_COUNT(memory) == 2 && SPOP_COUNT(text) == 9);
}

static void numbers_and_texts(void)
{
    uint8_t out[16];
    uint64_t value = 5, at, number;
    bool same = false;

    number = spop_put_number(2288, spop_room_of(out, sizeof out), &at);
    answered("put_number", number, at, SPOP_DONE, 3);
    check("put_number writes", is_hex(out, 3, "f08000"));
    number = spop_put_number(0, spop_room_of(NULL, 0), &at);
    answered("put_number into null", number, at, SPOP_NO_ROOM, 0);
    number = spop_get_number(spop_bytes_of(NULL, 0), &value, &at);
    answered("get_number from null", number, at, SPOP_TOO_SOON, 0);
    check("get_number refused sets no value", value == 5);
    number = spop_get_number(spop_bytes_of(out, 3), &value, &at);
    answered("get_number", number, at, SPOP_DONE, 3);
    check("get_number gives the number", value == 2288);

    check("bytes_are_text", spop_bytes_are_text(spop_text_of("delay")) && spop_bytes_are_text(spop_bytes_of(NULL, 0)) &&
          !spop_bytes_are_text(spop_bytes_of("\xff", 1)));
    check("texts_equal", spop_texts_equal(spop_bytes_of("\xff", 1), spop_bytes_of("\xfe", 1)) &&
          spop_texts_equal(spop_bytes_of(NULL, 0), spop_text_of("")) &&
          !spop_texts_equal(spop_bytes_of(NULL, 0), spop_text_of("a")));
    number = spop_put_both_texts(spop_bytes_of("a\xff", 2), spop_text_of("ab"), spop_room_of(out, 4), spop_room_of(out + 4, 2),
                                 &same, &at);
    answered("put_both_texts", number, at, SPOP_DONE, 0);
    check("put_both_texts writes", !same && is_hex(out, 6, "61 efbfbd 6162"));
    number = spop_put_both_texts(spop_bytes_of(NULL, 0), spop_text_of(""), spop_room_of(NULL, 0), spop_room_of(NULL, 0), &same,
                                 &at);
    answered("put_both_texts of nothing into nothing", number, at, SPOP_DONE, 0);
    check("put_both_texts of nothing", same);
    number = spop_put_lossy_text(spop_bytes_of("a\xff", 2), spop_room_of(out, 4), &at);
    answered("put_lossy_text", number, at, SPOP_DONE, 4);
    check("put_lossy_text writes", is_hex(out, 4, "61 efbfbd"));
    number = spop_put_lossy_text(spop_bytes_of("a\xff", 2), spop_room_of(out, 3), &at);
    answered("put_lossy_text without room", number, at, SPOP_NO_ROOM, 0);
    number = spop_put_lossy_text(spop_bytes_of(NULL, 0), spop_room_of(NULL, 0), &at);
    answered("put_lossy_text of nothing into nothing", number, at, SPOP_DONE, 0);
}

static void values(void)
{
    struct spop_value u32 = {SPOP_KIND_U32, 300, 0, 2}, empty = {SPOP_KIND_STRING, 0, 0, 0}, wrong = {SPOP_KIND_BOOL, 2, 0, 0};
    struct spop_value read;
    struct spop_bytes none = spop_bytes_of(NULL, 0);
    struct spop_pair pair;
    uint8_t out[8];
    uint64_t at, number;

    check("value_bytes", spop_value_bytes(&u32, none) == 3 && spop_value_bytes(&empty, none) == 2 &&
          spop_value_bytes(&wrong, none) == 0);
    check("value_refusal", spop_value_refusal(&u32, none) == SPOP_DONE && spop_value_refusal(&empty, none) == SPOP_DONE &&
          spop_value_refusal(&wrong, none) == SPOP_NOT_WRITABLE);
    number = spop_put_value(&u32, none, spop_room_of(out, 3), &at);
    answered("put_value", number, at, SPOP_DONE, 3);
    check("put_value writes", is_hex(out, 3, "23 fc 03"));
    number = spop_put_value(&u32, none, spop_room_of(NULL, 3), &at);
    answered("put_value into null", number, at, SPOP_NO_ROOM, 0);
    number = spop_get_value(spop_bytes_of(out, 3), &read, &at);
    answered("get_value", number, at, SPOP_DONE, 3);
    check("get_value gives the value", memcmp(&read, &u32, sizeof u32) == 0);
    number = spop_get_value(none, &read, &at);
    answered("get_value from null", number, at, SPOP_TOO_SOON, 0);
    number = spop_get_pair(spop_bytes_of("\4slot\3\7", 7), &pair, &at);
    answered("get_pair", number, at, SPOP_DONE, 7);
    check("get_pair gives the pair", pair.key_start == 1 && pair.key_len == 4 && pair.kind == SPOP_KIND_U32 && pair.a == 7 &&
          pair.b == 0 && pair.flags == 0);
    number = spop_get_pair(none, &pair, &at);
    answered("get_pair from null", number, at, SPOP_TOO_SOON, 0);
}

/* Reads the upload into tables with exactly so much room. */
static void read_into(size_t message_room, size_t pair_room, uint64_t should, uint64_t should_at)
{
    uint8_t input[64];
    size_t len = from_hex(UPLOAD, input);
    struct spop_message *messages = (struct spop_message *)exactly(message_room * sizeof *messages);
    struct spop_pair *pairs = (struct spop_pair *)exactly(pair_room * sizeof *pairs);
    struct spop_head head;
    uint64_t at, number;

    memset(&head, MARK, sizeof head);
    number = spop_get_frame(spop_bytes_of(input, len), SPOP_AGREED_FRAME, messages, message_room, pairs, pair_room, &head, &at);
    answered("get_frame", number, at, should, should_at);
    if (should == SPOP_DONE) {
        check("get_frame's head", head.type == SPOP_NOTIFY && head.flags == SPOP_FIN && head.stream_id == 1 && head.frame_id == 1 &&
              head.message_count == 1 && head.pair_count == 4);
        check("get_frame's message", messages->name_start == 12 && messages->name_len == 6 && messages->first_pair == 0 &&
              messages->pair_count == 4);
        check("get_frame's pairs", pairs[0].a == 3 && pairs[1].a == 1250 && pairs[2].a == 17 && pairs[3].key_start == 43 &&
              pairs[3].key_len == 5 && pairs[3].kind == SPOP_KIND_I64 && pairs[3].a == (uint64_t)INT64_C(-730) && pairs[3].b == 0);
        check("get_frame leaves the room behind", is_all(messages + 1, (message_room - 1) * sizeof *messages, MARK) &&
              is_all(pairs + 4, (pair_room - 4) * sizeof *pairs, MARK));
    } else {
        check("get_frame refused sets nothing", is_all(&head, sizeof head, MARK) &&
              is_all(messages, message_room * sizeof *messages, MARK) && is_all(pairs, pair_room * sizeof *pairs, MARK));
    }
    free(messages);
    free(pairs);
}

static void read_with_null(void)
{
    struct spop_head head;
    uint64_t at, number;

    number = spop_get_frame(spop_bytes_of(NULL, 0), SPOP_AGREED_FRAME, NULL, 0, NULL, 0, &head, &at);
    answered("get_frame of null", number, at, SPOP_WAIT, 4);
    number = spop_get_frame(spop_bytes_of("\0\0\0\7\1\0\0\0\1\0\0", 11), 7, NULL, 0, NULL, 0, &head, &at);
    answered("get_frame into null", number, at, SPOP_DONE, 11);
    check("get_frame into null gives the head", head.type == SPOP_HAPROXY_HELLO && head.message_count == 0 && head.pair_count == 0);
    number = spop_get_frame(spop_bytes_of("\0\0\0\12\1\0\0\0\1\0\0\1A\0", 14), 10, NULL, 9, NULL, 9, &head, &at);
    answered("get_frame into null that is said to have room", number, at, SPOP_TABLE_FULL, 14);
}

/* Two uploads, in tables for so many rows and for all of their records. */
static void read_all(size_t row_room, uint64_t should, uint64_t should_at)
{
    uint8_t input[2 * 59];
    struct spop_row *rows = (struct spop_row *)exactly(row_room * sizeof *rows);
    struct spop_message *messages = (struct spop_message *)exactly(2 * sizeof *messages);
    struct spop_pair *pairs = (struct spop_pair *)exactly(8 * sizeof *pairs);
    struct spop_counts counts;
    uint64_t at, number;
    size_t read = row_room < 2 ? row_room : 2;

    from_hex(UPLOAD UPLOAD, input);
    number = spop_get_frames(spop_bytes_of(input, sizeof input), 55, rows, row_room, messages, 2, pairs, 8, &counts, &at);
    answered("get_frames", number, at, should, should_at);
    check("get_frames counts", counts.frames == read && counts.messages == read && counts.pairs == 4 * read &&
          counts.used == 59 * read);
    for (size_t i = 0; i < read; i++) {
        check("get_frames gives the row", rows[i].start == 59 * i && rows[i].used == 59 && rows[i].type == SPOP_NOTIFY &&
              rows[i].stream_id == 1 && rows[i].frame_id == 1 && rows[i].first == i && rows[i].count == 1);
        check("get_frames gives the message", messages[i].name_start == 12 && messages[i].first_pair == 0 &&
              messages[i].pair_count == 4);
        check("get_frames gives the pairs", pairs[4 * i].a == 3 && pairs[4 * i + 2].a == 17);
    }
    check("get_frames leaves the room behind", is_all(rows + read, (row_room - read) * sizeof *rows, MARK) &&
          is_all(messages + read, (2 - read) * sizeof *messages, MARK) && is_all(pairs + 4 * read, (8 - 4 * read) * sizeof *pairs, MARK));
    free(rows);
    free(messages);
    free(pairs);
}

static void read_all_with_null(void)
{
    struct spop_counts counts;
    uint64_t at, number;

    number = spop_get_frames(spop_bytes_of(NULL, 0), 55, NULL, 0, NULL, 0, NULL, 0, &counts, &at);
    answered("get_frames of null", number, at, SPOP_WAIT, 4);
    number = spop_get_frames(spop_bytes_of("\0\0\0\7\1\0\0\0\1\0\0", 11), 7, NULL, 9, NULL, 9, NULL, 9, &counts, &at);
    answered("get_frames into null that is said to have room", number, at, SPOP_TABLE_FULL, 11);
    check("get_frames into null has read none", counts.frames == 0 && counts.used == 0);
}

static void write_frames(void)
{
    static const char names[] = "slotupload";
    const struct spop_bytes buffer = spop_bytes_of(names, sizeof names - 1), none = spop_bytes_of(NULL, 0);
    const struct spop_message messages[] = {{4, 6, 0, 1}, {4, 6, 1, 1}};
    const struct spop_pair pairs[] = {{0, 4, SPOP_KIND_U32, 3, 0, 0}, {0, 4, SPOP_KIND_NULL, 0, 0, 0}};
    const struct spop_action actions[] = {{SPOP_SET_VAR, SPOP_SCOPE_SESSION, 0, 4, SPOP_KIND_BOOL, 1, 0, 0},
                                          {SPOP_UNSET_VAR, SPOP_SCOPE_PROCESS, 4, 6, 0, 0, 0, 0}};
    uint8_t out[64];
    struct spop_room room = spop_room_of(out, sizeof out), null = spop_room_of(NULL, 0);
    uint64_t at, number;

    number = spop_put_notify(spop_ids_of(7, 8), buffer, messages, 2, pairs, 2, room, 36, &at);
    answered("put_notify", number, at, SPOP_DONE, 40);
    check("put_notify writes", is_hex(out, at, "00000024 03 00000001 07 08 06 75706c6f6164 01 04 736c6f74 03 03 "
                                      "06 75706c6f6164 01 04 736c6f74 00"));
    number = spop_put_notify(spop_ids_of(7, 8), buffer, messages, 2, pairs, 2, null, 36, &at);
    answered("put_notify into null", number, at, SPOP_NO_ROOM, 0);
    number = spop_put_notify(spop_ids_of(7, 8), none, NULL, 0, NULL, 0, room, 7, &at);
    answered("put_notify of null", number, at, SPOP_DONE, 11);
    check("put_notify of null writes a head", is_hex(out, at, "00000007 03 00000001 07 08"));
    number = spop_put_notify(spop_ids_of(7, 8), buffer, NULL, 1, pairs, 2, room, 36, &at);
    answered("put_notify of null that is said to have messages", number, at, SPOP_OUTSIDE, 0);

    number = spop_put_kv(SPOP_AGENT_HELLO, buffer, pairs, 1, room, 14, &at);
    answered("put_kv", number, at, SPOP_DONE, 18);
    check("put_kv writes", is_hex(out, at, "0000000e 65 00000001 00 00 04 736c6f74 03 03"));
    number = spop_put_kv(SPOP_AGENT_HELLO, buffer, pairs, 2, room, 64, &at);
    answered("put_kv of a key twice", number, at, SPOP_MET_TWICE, 1);
    number = spop_put_kv(SPOP_AGENT_HELLO, buffer, pairs, 1, null, 14, &at);
    answered("put_kv into null", number, at, SPOP_NO_ROOM, 0);
    number = spop_put_kv(SPOP_HAPROXY_HELLO, none, NULL, 0, room, 7, &at);
    answered("put_kv of null", number, at, SPOP_DONE, 11);

    number = spop_put_ack(spop_ids_of(7, 240), buffer, actions, 2, room, 27, &at);
    answered("put_ack", number, at, SPOP_DONE, 31);
    check("put_ack writes", is_hex(out, at, "0000001b 67 00000001 07 f000 01 03 01 04 736c6f74 11 02 02 00 06 75706c6f6164"));
    number = spop_put_ack(spop_ids_of(7, 240), buffer, actions, 2, room, 26, &at);
    answered("put_ack over the limit", number, at, SPOP_OVER_LIMIT, 0);
    number = spop_put_ack(spop_ids_of(7, 8), none, NULL, 0, room, 7, &at);
    answered("put_ack of null", number, at, SPOP_DONE, 11);
    number = spop_put_ack(spop_ids_of(7, 8), none, actions, 2, room, 64, &at);
    answered("put_ack of names in no buffer", number, at, SPOP_OUTSIDE, 0);
}

static void versions(void)
{
    static const struct spop_announced announced[] = {{1, 9, 9, 0}, {2, 0, 0, 1}, {2, 3, 4, 0}};
    struct spop_version version = {7, 7, 7};

    check("choose_version without a 2", !spop_choose_version(announced, 1, &version) && version.major == 7 && version.patch == 7);
    check("choose_version of a release candidate", !spop_choose_version(announced, 2, &version) && version.major == 7);
    check("choose_version of null", !spop_choose_version(NULL, 0, &version) && version.major == 7);
    check("choose_version", spop_choose_version(announced, SPOP_COUNT(announced), &version) && version.major == 2 &&
          version.minor == 0 && version.patch == 0);
}

int main(void)
{
    layout();
    bytes();
    numbers_and_texts();
    values();
    read_into(1, 4, SPOP_DONE, 59);
    read_into(3, 6, SPOP_DONE, 59);
    read_into(0, 4, SPOP_TABLE_FULL, 19);
    read_into(1, 3, SPOP_TABLE_FULL, 59);
    read_with_null();
    read_all(3, SPOP_WAIT, 4);
    read_all(2, SPOP_WAIT, 4);
    read_all(1, SPOP_TABLE_FULL, 59);
    read_all(0, SPOP_TABLE_FULL, 59);
    read_all_with_null();
    write_frames();
    versions();
    return checked();
}
