// C++ containers lent as they are, empty ones too, whose data may be null.
#include <string>
#include <vector>

#include "check.h"

static spop_bytes lent(const std::vector<uint8_t> &bytes) { return spop_bytes_of(bytes.data(), bytes.size()); }
static spop_bytes lent(const std::string &text) { return spop_bytes_of(text.data(), text.size()); }
static spop_room room(std::vector<uint8_t> &bytes) { return spop_room_of(bytes.data(), bytes.size()); }

static uint64_t read(const std::vector<uint8_t> &input, std::vector<spop_message> &messages, std::vector<spop_pair> &pairs,
                     spop_head &head, uint64_t &at)
{
    return spop_get_frame(lent(input), SPOP_AGREED_FRAME, messages.data(), messages.size(), pairs.data(), pairs.size(), &head, &at);
}

// Every container is empty.
static void empty()
{
    const std::vector<uint8_t> bytes;
    std::vector<uint8_t> out;
    std::vector<spop_message> messages;
    std::vector<spop_pair> pairs;
    std::vector<spop_action> actions;
    std::vector<spop_announced> versions;
    spop_head head = spop_head();
    spop_version version = {7, 7, 7};
    spop_builder b;
    uint64_t value = 0, at, number;
    bool same = false;

    check("an empty vector is null here, so that null is tried", bytes.data() == nullptr);
    number = read(bytes, messages, pairs, head, at);
    answered("get_frame", number, at, SPOP_WAIT, 4);
    number = spop_get_number(lent(bytes), &value, &at);
    answered("get_number", number, at, SPOP_TOO_SOON, 0);
    number = spop_put_number(1, room(out), &at);
    answered("put_number", number, at, SPOP_NO_ROOM, 0);
    number = spop_put_lossy_text(lent(bytes), room(out), &at);
    answered("put_lossy_text", number, at, SPOP_DONE, 0);
    check("bytes_are_text", spop_bytes_are_text(lent(bytes)));
    check("texts_equal", spop_texts_equal(lent(bytes), lent(std::string())));
    number = spop_put_both_texts(lent(bytes), lent(bytes), room(out), room(out), &same, &at);
    answered("put_both_texts", number, at, SPOP_DONE, 0);
    check("put_both_texts says the same", same);
    check("choose_version", !spop_choose_version(versions.data(), versions.size(), &version));
    number = spop_put_kv(SPOP_AGENT_HELLO, lent(bytes), pairs.data(), pairs.size(), room(out), 256, &at);
    answered("put_kv", number, at, SPOP_NO_ROOM, 0);
    number = spop_put_ack(spop_ids{1, 1}, lent(bytes), actions.data(), actions.size(), room(out), 256, &at);
    answered("put_ack", number, at, SPOP_NO_ROOM, 0);
    number = spop_put_notify(spop_ids{1, 1}, lent(bytes), messages.data(), messages.size(), pairs.data(), pairs.size(), room(out),
                             256, &at);
    answered("put_notify", number, at, SPOP_NO_ROOM, 0);
    spop_builder_init(&b, room(out));
    spop_lend_messages(&b, messages.data(), messages.size());
    check("add_message", spop_add_message(&b, "") == SPOP_TABLE_FULL);
}

// An upload through containers, there and back.
static void there_and_back()
{
    std::vector<uint8_t> pool(64), out(256);
    std::vector<spop_message> messages(1);
    std::vector<spop_pair> pairs(2);
    const std::string key = "slot", text = "bench 4";
    spop_builder b;
    spop_frame frame;
    uint64_t at, number;
    uint32_t slot = 0;
    spop_bytes note = spop_bytes();

    spop_builder_init(&b, room(pool));
    spop_lend_messages(&b, messages.data(), messages.size());
    spop_lend_pairs(&b, pairs.data(), pairs.size());
    spop_add_message(&b, "upload");
    spop_add_pair(&b, lent(key), spop_data_u32(3));
    spop_add_pair(&b, lent(std::string()), spop_data_string(lent(text)));
    number = spop_build_notify(&b, spop_ids{1, 1}, room(out), SPOP_AGREED_FRAME, &at);
    answered("build_notify", number, at, SPOP_DONE, 36);
    out.resize(at);

    std::vector<spop_message> read_messages(1);
    std::vector<spop_pair> read_pairs(2);
    spop_frame_init(&frame, read_messages.data(), read_messages.size(), read_pairs.data(), read_pairs.size());
    number = spop_frame_read(&frame, lent(out), SPOP_AGREED_FRAME, &at);
    answered("frame_read", number, at, SPOP_DONE, 36);
    spop_walk w = spop_walk_over(&frame);
    check("the message", spop_next_message(&w) && spop_bytes_are(w.name, "upload"));
    check("the slot", spop_next_argument(&w) && spop_bytes_equal(w.key, lent(key)) && spop_as_u32(w.value, &slot) && slot == 3);
    check("the note", spop_next_argument(&w) && w.key.len == 0 && spop_as_string(w.value, &note) &&
          std::string(note.start, note.start + note.len) == text);
    check("the end", !spop_next_argument(&w) && !spop_next_message(&w));
}

int main()
{
    empty();
    there_and_back();
    return checked();
}
