/* Frames built name by name, and read argument by argument, over the calls of spop.h. Header only, for C and C++; it allocates
 * nothing and keeps no state of its own. What is named spop_inner is for its own use.
 *
 *     uint8_t pool[64], out[256];
 *     struct spop_message messages[1];
 *     struct spop_pair pairs[4];
 *     struct spop_builder b;
 *     uint64_t at;
 *
 *     spop_builder_init(&b, spop_room_of(pool, sizeof pool));
 *     spop_lend_messages(&b, messages, SPOP_COUNT(messages));
 *     spop_lend_pairs(&b, pairs, SPOP_COUNT(pairs));
 *     spop_add_message(&b, "upload");
 *     spop_add_u32(&b, "slot", 3);
 *     spop_add_i64(&b, "delay", 1250);
 *     if (spop_build_notify(&b, spop_ids_of(1, 1), spop_room_of(out, sizeof out), SPOP_AGREED_FRAME, &at) == SPOP_DONE)
 *         send(out, at);
 */
#ifndef SPOP_BUILD_H
#define SPOP_BUILD_H

#include "spop.h"

#ifdef __cplusplus
extern "C" {
#endif

/* A value with its own bytes: what is added to a frame, and what is read from one. */
struct spop_data {
    uint64_t kind;
    uint64_t number;            /* of a bool and of integers: what a record has for a */
    struct spop_bytes bytes;    /* of addresses, strings and binary */
    uint64_t flags;             /* the upper four bits of the type byte, which SPOP leaves unused */
};

static inline struct spop_data spop_data_of(uint64_t kind, uint64_t number, struct spop_bytes bytes)
{
    struct spop_data data;

    data.kind = kind;
    data.number = number;
    data.bytes = bytes;
    data.flags = 0;
    return data;
}

static inline struct spop_data spop_data_null(void)
{
    return spop_data_of(SPOP_KIND_NULL, 0, spop_bytes_of(NULL, 0));
}

static inline struct spop_data spop_data_bool(bool truth)
{
    return spop_data_of(SPOP_KIND_BOOL, truth ? 1 : 0, spop_bytes_of(NULL, 0));
}

static inline struct spop_data spop_data_i32(int32_t n)
{
    return spop_data_of(SPOP_KIND_I32, (uint64_t)(int64_t)n, spop_bytes_of(NULL, 0));
}

static inline struct spop_data spop_data_u32(uint32_t n)
{
    return spop_data_of(SPOP_KIND_U32, n, spop_bytes_of(NULL, 0));
}

static inline struct spop_data spop_data_i64(int64_t n)
{
    return spop_data_of(SPOP_KIND_I64, (uint64_t)n, spop_bytes_of(NULL, 0));
}

static inline struct spop_data spop_data_u64(uint64_t n)
{
    return spop_data_of(SPOP_KIND_U64, n, spop_bytes_of(NULL, 0));
}

/* Addresses are in the order of the network. */
static inline struct spop_data spop_data_ipv4(const uint8_t address[4])
{
    return spop_data_of(SPOP_KIND_IPV4, 0, spop_bytes_of(address, 4));
}

static inline struct spop_data spop_data_ipv6(const uint8_t address[16])
{
    return spop_data_of(SPOP_KIND_IPV6, 0, spop_bytes_of(address, 16));
}

static inline struct spop_data spop_data_string(struct spop_bytes text)
{
    return spop_data_of(SPOP_KIND_STRING, 0, text);
}

static inline struct spop_data spop_data_binary(struct spop_bytes bytes)
{
    return spop_data_of(SPOP_KIND_BINARY, 0, bytes);
}

/* Whether the values of a kind are bytes: addresses, strings and binary. */
static inline bool spop_has_bytes(uint64_t kind)
{
    return kind >= SPOP_KIND_IPV4 && kind <= SPOP_KIND_BINARY;
}

/* Getters. Each is false for a value of another kind, and then nothing is set. What they give as bytes stays where it was read. */

static inline bool spop_is_null(struct spop_data data)
{
    return data.kind == SPOP_KIND_NULL;
}

static inline bool spop_as_bool(struct spop_data data, bool *truth)
{
    if (data.kind != SPOP_KIND_BOOL)
        return false;
    *truth = data.number != 0;
    return true;
}

/* A signed number is the one whose bits in two's complement the record has, so the bits are copied. */
static inline bool spop_as_i32(struct spop_data data, int32_t *n)
{
    uint32_t bits = (uint32_t)data.number;

    if (data.kind != SPOP_KIND_I32)
        return false;
    memcpy(n, &bits, sizeof *n);
    return true;
}

static inline bool spop_as_u32(struct spop_data data, uint32_t *n)
{
    if (data.kind != SPOP_KIND_U32)
        return false;
    *n = (uint32_t)data.number;
    return true;
}

static inline bool spop_as_i64(struct spop_data data, int64_t *n)
{
    if (data.kind != SPOP_KIND_I64)
        return false;
    memcpy(n, &data.number, sizeof *n);
    return true;
}

static inline bool spop_as_u64(struct spop_data data, uint64_t *n)
{
    if (data.kind != SPOP_KIND_U64)
        return false;
    *n = data.number;
    return true;
}

static inline bool spop_as_ipv4(struct spop_data data, uint8_t address[4])
{
    if (data.kind != SPOP_KIND_IPV4 || data.bytes.len != 4)
        return false;
    memcpy(address, data.bytes.start, 4);
    return true;
}

static inline bool spop_as_ipv6(struct spop_data data, uint8_t address[16])
{
    if (data.kind != SPOP_KIND_IPV6 || data.bytes.len != 16)
        return false;
    memcpy(address, data.bytes.start, 16);
    return true;
}

/* A string that was read may be any bytes: spop_bytes_are_text says whether it is UTF-8. */
static inline bool spop_as_string(struct spop_data data, struct spop_bytes *text)
{
    if (data.kind != SPOP_KIND_STRING)
        return false;
    *text = data.bytes;
    return true;
}

static inline bool spop_as_binary(struct spop_data data, struct spop_bytes *bytes)
{
    if (data.kind != SPOP_KIND_BINARY)
        return false;
    *bytes = data.bytes;
    return true;
}

/* A builder. It copies names, keys and texts into a pool, and puts records into tables, all of which are lent to it. What is added
 * is written in that order, and nothing changes places.
 *
 * Adding answers 0; or else it adds nothing, and answers
 *
 *    10  the table has no room for the record
 *    11  the pool has no room for its bytes
 *    16  its bytes are null, and not of length 0
 *
 * What was added before stands. The first refusal is kept: whatever is added after it gets the same answer and is not added
 * either, and so does the frame, with the index that the record would have had in its table for *at. So the answers of adding need
 * not be looked at: a frame from which something is missing is not written. Fields may be read, and are set by the calls alone. */
struct spop_builder {
    struct spop_room pool;
    size_t pool_used;
    struct spop_message *messages;
    size_t message_room;
    size_t message_count;
    struct spop_pair *pairs;
    size_t pair_room;
    size_t pair_count;
    struct spop_action *actions;
    size_t action_room;
    size_t action_count;
    uint64_t refusal;           /* the first, or 0 */
    uint64_t refused_at;
};

/* Starts over: what was added is forgotten, and the refusal with it. The memory stays lent. */
static inline void spop_builder_clear(struct spop_builder *b)
{
    b->pool_used = 0;
    b->message_count = 0;
    b->pair_count = 0;
    b->action_count = 0;
    b->refusal = SPOP_DONE;
    b->refused_at = 0;
}

/* Forgets the refusal alone, for whoever has seen it and writes what was added before it. */
static inline void spop_builder_go_on(struct spop_builder *b)
{
    b->refusal = SPOP_DONE;
    b->refused_at = 0;
}

/* Begins, with a pool for the bytes of names, keys, texts and addresses. It has no tables yet; a frame needs those that it uses:
 * messages and pairs for a NOTIFY, pairs for a KV list, actions for an ACK. */
static inline void spop_builder_init(struct spop_builder *b, struct spop_room pool)
{
    b->pool = spop_inner_room(pool);
    b->messages = NULL;
    b->message_room = 0;
    b->pairs = NULL;
    b->pair_room = 0;
    b->actions = NULL;
    b->action_room = 0;
    spop_builder_clear(b);
}

/* Lends a table with room for so many records. One that was lent before is forgotten with its records. */
static inline void spop_lend_messages(struct spop_builder *b, struct spop_message *messages, size_t room)
{
    b->messages = messages;
    b->message_room = messages != NULL ? room : 0;
    b->message_count = 0;
}

static inline void spop_lend_pairs(struct spop_builder *b, struct spop_pair *pairs, size_t room)
{
    b->pairs = pairs;
    b->pair_room = pairs != NULL ? room : 0;
    b->pair_count = 0;
}

static inline void spop_lend_actions(struct spop_builder *b, struct spop_action *actions, size_t room)
{
    b->actions = actions;
    b->action_room = actions != NULL ? room : 0;
    b->action_count = 0;
}

/* What adding a record answers, with its name and its value's bytes, before anything is changed. */
static inline uint64_t spop_inner_refusal(const struct spop_builder *b, bool has_room, struct spop_bytes name,
                                          struct spop_bytes bytes)
{
    size_t left = b->pool.len - b->pool_used;

    if (b->refusal != SPOP_DONE)
        return b->refusal;
    if (!has_room)
        return SPOP_TABLE_FULL;
    if ((name.start == NULL && name.len > 0) || (bytes.start == NULL && bytes.len > 0))
        return SPOP_OUTSIDE;
    if (name.len > left || bytes.len > left - name.len)
        return SPOP_NO_ROOM;
    return SPOP_DONE;
}

/* Keeps a refusal where there is none yet, and gives the one that is kept. */
static inline uint64_t spop_inner_keep(struct spop_builder *b, uint64_t refusal, size_t index)
{
    if (b->refusal == SPOP_DONE) {
        b->refusal = refusal;
        b->refused_at = index;
    }
    return b->refusal;
}

/* Copies bytes that fit into the pool, and gives their start. */
static inline uint64_t spop_inner_pooled(struct spop_builder *b, struct spop_bytes bytes)
{
    size_t start = b->pool_used;

    if (bytes.len > 0)
        memcpy(b->pool.start + start, bytes.start, bytes.len);
    b->pool_used += bytes.len;
    return start;
}

/* The record of a value, whose bytes fit into the pool. */
static inline struct spop_value spop_inner_value(struct spop_builder *b, struct spop_data data)
{
    struct spop_value value;

    value.kind = data.kind;
    value.a = spop_has_bytes(data.kind) ? spop_inner_pooled(b, data.bytes) : data.number;
    value.b = spop_has_bytes(data.kind) ? data.bytes.len : 0;
    value.flags = data.flags;
    return value;
}

/* Adding with names and keys that are any bytes. The bytes of a value are taken where its kind has bytes. */

/* Begins a message. The pairs that are added from now on are its arguments. */
static inline uint64_t spop_add_message_bytes(struct spop_builder *b, struct spop_bytes name)
{
    size_t index = b->message_count;
    uint64_t refusal = spop_inner_refusal(b, index < b->message_room, name, spop_bytes_of(NULL, 0));

    if (refusal != SPOP_DONE)
        return spop_inner_keep(b, refusal, index);
    b->messages[index].name_start = spop_inner_pooled(b, name);
    b->messages[index].name_len = name.len;
    b->messages[index].first_pair = b->pair_count;
    b->messages[index].pair_count = 0;
    b->message_count++;
    return SPOP_DONE;
}

/* Adds a pair: an argument of the message that was begun last, or where there is none a pair of a KV list. */
static inline uint64_t spop_add_pair(struct spop_builder *b, struct spop_bytes key, struct spop_data data)
{
    size_t index = b->pair_count;
    struct spop_bytes bytes = spop_has_bytes(data.kind) ? data.bytes : spop_bytes_of(NULL, 0);
    uint64_t refusal = spop_inner_refusal(b, index < b->pair_room, key, bytes);
    struct spop_value value;

    if (refusal != SPOP_DONE)
        return spop_inner_keep(b, refusal, index);
    b->pairs[index].key_start = spop_inner_pooled(b, key);
    b->pairs[index].key_len = key.len;
    value = spop_inner_value(b, data);
    b->pairs[index].kind = value.kind;
    b->pairs[index].a = value.a;
    b->pairs[index].b = value.b;
    b->pairs[index].flags = value.flags;
    b->pair_count++;
    if (b->message_count > 0)
        b->messages[b->message_count - 1].pair_count++;
    return SPOP_DONE;
}

/* Adds an action, by its type (enum spop_action_type). */
static inline uint64_t spop_add_action(struct spop_builder *b, uint64_t action, uint64_t scope, struct spop_bytes name,
                                       struct spop_data data)
{
    size_t index = b->action_count;
    struct spop_bytes bytes = spop_has_bytes(data.kind) ? data.bytes : spop_bytes_of(NULL, 0);
    uint64_t refusal = spop_inner_refusal(b, index < b->action_room, name, bytes);
    struct spop_value value;

    if (refusal != SPOP_DONE)
        return spop_inner_keep(b, refusal, index);
    b->actions[index].action = action;
    b->actions[index].scope = scope;
    b->actions[index].name_start = spop_inner_pooled(b, name);
    b->actions[index].name_len = name.len;
    value = spop_inner_value(b, data);
    b->actions[index].kind = value.kind;
    b->actions[index].a = value.a;
    b->actions[index].b = value.b;
    b->actions[index].flags = value.flags;
    b->action_count++;
    return SPOP_DONE;
}

/* Adds an action that sets a variable of a scope (enum spop_scope) to a value. */
static inline uint64_t spop_set_var(struct spop_builder *b, uint64_t scope, struct spop_bytes name, struct spop_data data)
{
    return spop_add_action(b, SPOP_SET_VAR, scope, name, data);
}

/* Adds an action that unsets one. */
static inline uint64_t spop_unset_var(struct spop_builder *b, uint64_t scope, struct spop_bytes name)
{
    return spop_add_action(b, SPOP_UNSET_VAR, scope, name, spop_data_null());
}

/* The same with names, keys and texts that are C strings, which must not be null. */

static inline uint64_t spop_add_message(struct spop_builder *b, const char *name)
{
    return spop_add_message_bytes(b, spop_text_of(name));
}

static inline uint64_t spop_add_null(struct spop_builder *b, const char *key)
{
    return spop_add_pair(b, spop_text_of(key), spop_data_null());
}

static inline uint64_t spop_add_bool(struct spop_builder *b, const char *key, bool truth)
{
    return spop_add_pair(b, spop_text_of(key), spop_data_bool(truth));
}

static inline uint64_t spop_add_i32(struct spop_builder *b, const char *key, int32_t n)
{
    return spop_add_pair(b, spop_text_of(key), spop_data_i32(n));
}

static inline uint64_t spop_add_u32(struct spop_builder *b, const char *key, uint32_t n)
{
    return spop_add_pair(b, spop_text_of(key), spop_data_u32(n));
}

static inline uint64_t spop_add_i64(struct spop_builder *b, const char *key, int64_t n)
{
    return spop_add_pair(b, spop_text_of(key), spop_data_i64(n));
}

static inline uint64_t spop_add_u64(struct spop_builder *b, const char *key, uint64_t n)
{
    return spop_add_pair(b, spop_text_of(key), spop_data_u64(n));
}

static inline uint64_t spop_add_ipv4(struct spop_builder *b, const char *key, const uint8_t address[4])
{
    return spop_add_pair(b, spop_text_of(key), spop_data_ipv4(address));
}

static inline uint64_t spop_add_ipv6(struct spop_builder *b, const char *key, const uint8_t address[16])
{
    return spop_add_pair(b, spop_text_of(key), spop_data_ipv6(address));
}

static inline uint64_t spop_add_string(struct spop_builder *b, const char *key, const char *text)
{
    return spop_add_pair(b, spop_text_of(key), spop_data_string(spop_text_of(text)));
}

static inline uint64_t spop_add_binary(struct spop_builder *b, const char *key, const void *start, size_t len)
{
    return spop_add_pair(b, spop_text_of(key), spop_data_binary(spop_bytes_of(start, len)));
}

static inline uint64_t spop_set_null(struct spop_builder *b, uint64_t scope, const char *name)
{
    return spop_set_var(b, scope, spop_text_of(name), spop_data_null());
}

static inline uint64_t spop_set_bool(struct spop_builder *b, uint64_t scope, const char *name, bool truth)
{
    return spop_set_var(b, scope, spop_text_of(name), spop_data_bool(truth));
}

static inline uint64_t spop_set_i32(struct spop_builder *b, uint64_t scope, const char *name, int32_t n)
{
    return spop_set_var(b, scope, spop_text_of(name), spop_data_i32(n));
}

static inline uint64_t spop_set_u32(struct spop_builder *b, uint64_t scope, const char *name, uint32_t n)
{
    return spop_set_var(b, scope, spop_text_of(name), spop_data_u32(n));
}

static inline uint64_t spop_set_i64(struct spop_builder *b, uint64_t scope, const char *name, int64_t n)
{
    return spop_set_var(b, scope, spop_text_of(name), spop_data_i64(n));
}

static inline uint64_t spop_set_u64(struct spop_builder *b, uint64_t scope, const char *name, uint64_t n)
{
    return spop_set_var(b, scope, spop_text_of(name), spop_data_u64(n));
}

static inline uint64_t spop_set_ipv4(struct spop_builder *b, uint64_t scope, const char *name, const uint8_t address[4])
{
    return spop_set_var(b, scope, spop_text_of(name), spop_data_ipv4(address));
}

static inline uint64_t spop_set_ipv6(struct spop_builder *b, uint64_t scope, const char *name, const uint8_t address[16])
{
    return spop_set_var(b, scope, spop_text_of(name), spop_data_ipv6(address));
}

static inline uint64_t spop_set_string(struct spop_builder *b, uint64_t scope, const char *name, const char *text)
{
    return spop_set_var(b, scope, spop_text_of(name), spop_data_string(spop_text_of(text)));
}

static inline uint64_t spop_set_binary(struct spop_builder *b, uint64_t scope, const char *name, const void *start, size_t len)
{
    return spop_set_var(b, scope, spop_text_of(name), spop_data_binary(spop_bytes_of(start, len)));
}

static inline uint64_t spop_unset(struct spop_builder *b, uint64_t scope, const char *name)
{
    return spop_unset_var(b, scope, spop_text_of(name));
}

/* Writing what was added. Each answers, with *at set: the refusal that the builder keeps; or 14 at 0, where something was added
 * that this frame has no place for; or what the helper of spop.h answers that heads it. A builder may be written more than once.
 * out must not overlap the pool. */

/* Why no frame is written: a refusal that is kept, or records that have no place in it. */
static inline uint64_t spop_inner_frame_refusal(const struct spop_builder *b, size_t out_of_place, uint64_t *at)
{
    *at = b->refused_at;
    if (b->refusal != SPOP_DONE)
        return b->refusal;
    return out_of_place > 0 ? SPOP_NOT_WRITABLE : SPOP_DONE;
}

static inline struct spop_bytes spop_inner_pool(const struct spop_builder *b)
{
    return spop_bytes_of(b->pool.start, b->pool_used);
}

/* spop_put_notify: messages and their arguments. */
static inline uint64_t spop_build_notify(const struct spop_builder *b, struct spop_ids ids, struct spop_room out, uint32_t limit,
                                         uint64_t *at)
{
    uint64_t refusal = spop_inner_frame_refusal(b, b->action_count, at);

    if (refusal != SPOP_DONE)
        return refusal;
    return spop_put_notify(ids, spop_inner_pool(b), b->messages, b->message_count, b->pairs, b->pair_count, out, limit, at);
}

/* spop_put_kv: the pairs of a HELLO or a DISCONNECT, by its type. */
static inline uint64_t spop_build_kv(const struct spop_builder *b, uint64_t type, struct spop_room out, uint32_t limit,
                                     uint64_t *at)
{
    uint64_t refusal = spop_inner_frame_refusal(b, b->message_count + b->action_count, at);

    if (refusal != SPOP_DONE)
        return refusal;
    return spop_put_kv(type, spop_inner_pool(b), b->pairs, b->pair_count, out, limit, at);
}

/* spop_put_ack: actions. */
static inline uint64_t spop_build_ack(const struct spop_builder *b, struct spop_ids ids, struct spop_room out, uint32_t limit,
                                      uint64_t *at)
{
    uint64_t refusal = spop_inner_frame_refusal(b, b->message_count + b->pair_count, at);

    if (refusal != SPOP_DONE)
        return refusal;
    return spop_put_ack(ids, spop_inner_pool(b), b->actions, b->action_count, out, limit, at);
}

/* Any of the three by the frame's type. A HELLO or a DISCONNECT has both ids 0, and others are 14 at 0. */
static inline uint64_t spop_write(const struct spop_builder *b, uint64_t type, struct spop_ids ids, struct spop_room out,
                                  uint32_t limit, uint64_t *at)
{
    if (type == SPOP_NOTIFY)
        return spop_build_notify(b, ids, out, limit, at);
    if (type == SPOP_ACK)
        return spop_build_ack(b, ids, out, limit, at);
    if (ids.stream_id != 0 || ids.frame_id != 0) {
        *at = 0;
        return SPOP_NOT_WRITABLE;
    }
    return spop_build_kv(b, type, out, limit, at);
}

/* A frame that is read, with the tables that it is read into. */
struct spop_frame {
    struct spop_message *messages;
    size_t message_room;
    struct spop_pair *pairs;
    size_t pair_room;
    struct spop_head head;
    struct spop_bytes bytes;    /* the frame's own, with its length bytes; what the records point at */
};

/* Begins with no frame, and with tables that have room for so many records. */
static inline void spop_frame_init(struct spop_frame *f, struct spop_message *messages, size_t message_room,
                                   struct spop_pair *pairs, size_t pair_room)
{
    static const struct spop_head none = {0, 0, 0, 0, 0, 0};

    f->messages = messages;
    f->message_room = messages != NULL ? message_room : 0;
    f->pairs = pairs;
    f->pair_room = pairs != NULL ? pair_room : 0;
    f->head = none;
    f->bytes = spop_bytes_of(NULL, 0);
}

/* Reads the frame at the front of input, as spop_read_frame does. After 0 the next frame is at spop_bytes_behind(input, *at). The
 * frame points into the input: its bytes have to stay as long as it is walked over. After any other number it is as it was. */
static inline uint64_t spop_frame_read(struct spop_frame *f, struct spop_bytes input, uint32_t limit, uint64_t *at)
{
    uint64_t number = spop_get_frame(input, limit, f->messages, f->message_room, f->pairs, f->pair_room, &f->head, at);

    if (number == SPOP_DONE)
        f->bytes = spop_bytes_of(input.start, (size_t)*at);
    return number;
}

/* A walk over a frame that was read, in the order of its bytes:
 *
 *     struct spop_walk w = spop_walk_over(&frame);
 *
 *     while (spop_next_message(&w))
 *         while (spop_next_argument(&w))
 *             .. w.name, w.key, w.value ..
 *
 * Without the outer loop, the inner one gives the arguments of all messages, or the pairs of a KV list. */
struct spop_walk {
    const struct spop_frame *frame;
    uint64_t next_message;
    uint64_t next_pair;
    uint64_t end_pair;
    struct spop_bytes name;     /* of the message */
    uint64_t index;             /* of the argument, among all of the frame */
    struct spop_bytes key;
    struct spop_data value;
};

static inline struct spop_walk spop_walk_over(const struct spop_frame *f)
{
    struct spop_walk w;

    w.frame = f;
    w.next_message = 0;
    w.next_pair = 0;
    w.end_pair = f->head.pair_count;
    w.name = spop_bytes_of(NULL, 0);
    w.index = 0;
    w.key = spop_bytes_of(NULL, 0);
    w.value = spop_data_null();
    return w;
}

/* Goes on to the next message, also where arguments of the one before it are left. False at the end. */
static inline bool spop_next_message(struct spop_walk *w)
{
    const struct spop_message *message;

    if (w->next_message >= w->frame->head.message_count)
        return false;
    message = &w->frame->messages[w->next_message++];
    w->name = spop_bytes_at(w->frame->bytes, message->name_start, message->name_len);
    w->next_pair = message->first_pair;
    w->end_pair = message->first_pair + message->pair_count;
    return true;
}

/* The value of a pair that was read from bytes. */
static inline struct spop_data spop_pair_data(struct spop_bytes bytes, const struct spop_pair *pair)
{
    struct spop_data data = spop_data_of(pair->kind, pair->a, spop_bytes_of(NULL, 0));

    if (spop_has_bytes(pair->kind)) {
        data.number = 0;
        data.bytes = spop_bytes_at(bytes, pair->a, pair->b);
    }
    data.flags = pair->flags;
    return data;
}

/* Goes on to the next argument of the message, or of the frame where no message was gone to. False at the end. */
static inline bool spop_next_argument(struct spop_walk *w)
{
    const struct spop_pair *pair;

    if (w->next_pair >= w->end_pair)
        return false;
    w->index = w->next_pair++;
    pair = &w->frame->pairs[w->index];
    w->key = spop_bytes_at(w->frame->bytes, pair->key_start, pair->key_len);
    w->value = spop_pair_data(w->frame->bytes, pair);
    return true;
}

/* The value of the frame's first argument, or pair of its KV list, with a key; null where there is none. */
static inline struct spop_data spop_frame_get(const struct spop_frame *f, const char *key)
{
    struct spop_walk w = spop_walk_over(f);

    while (spop_next_argument(&w))
        if (spop_bytes_are(w.key, key))
            return w.value;
    return spop_data_null();
}

/* All frames of a buffer, with the tables that they are read into, and the one that the walk over them is at:
 *
 *     uint64_t number = spop_frames_read(&frames, input, limit, &at);
 *
 *     while (spop_next_frame(&frames)) {
 *         struct spop_walk w = spop_walk_over(&frames.frame);
 *         .. frames.frame.head, and its messages and arguments as above ..
 *     }
 *     .. number and at say why it ended, and spop_frames_rest(&frames) is what is left .. */
struct spop_frames {
    struct spop_row *rows;
    size_t row_room;
    struct spop_message *messages;
    size_t message_room;
    struct spop_pair *pairs;
    size_t pair_room;
    struct spop_bytes input;
    struct spop_counts counts;
    uint64_t next_row;
    uint64_t next_message;      /* the first record of the next frame, in each table */
    uint64_t next_pair;
    struct spop_frame frame;    /* its tables and bytes are parts of those that were lent here */
};

/* Begins with no frame, and with tables that have room for so many rows and records. */
static inline void spop_frames_init(struct spop_frames *f, struct spop_row *rows, size_t row_room, struct spop_message *messages,
                                    size_t message_room, struct spop_pair *pairs, size_t pair_room)
{
    static const struct spop_counts none = {0, 0, 0, 0};

    f->rows = rows;
    f->row_room = row_room;
    f->messages = messages;
    f->message_room = message_room;
    f->pairs = pairs;
    f->pair_room = pair_room;
    f->input = spop_bytes_of(NULL, 0);
    f->counts = none;
    f->next_row = 0;
    f->next_message = 0;
    f->next_pair = 0;
    spop_frame_init(&f->frame, NULL, 0, NULL, 0);
}

/* Reads all frames at the front of input, and answers what stopped it, as spop_read_frames does. The walk begins anew, before the first
 * frame. Frames point into the input: its bytes have to stay as long as they are walked over. */
static inline uint64_t spop_frames_read(struct spop_frames *f, struct spop_bytes input, uint32_t limit, uint64_t *at)
{
    struct spop_counts counts;
    uint64_t number = spop_get_frames(input, limit, f->rows, f->row_room, f->messages, f->message_room, f->pairs, f->pair_room,
                                      &counts, at);

    spop_frames_init(f, f->rows, f->row_room, f->messages, f->message_room, f->pairs, f->pair_room);
    f->input = input;
    f->counts = counts;
    return number;
}

/* The bytes behind the frames that were read: from the frame on that stopped the reading. */
static inline struct spop_bytes spop_frames_rest(const struct spop_frames *f)
{
    return spop_bytes_behind(f->input, f->counts.used);
}

/* How many pairs the arguments of so many messages are: where those of the last one end. */
static inline uint64_t spop_inner_pairs_of(const struct spop_message *messages, uint64_t count)
{
    return count > 0 ? messages[count - 1].first_pair + messages[count - 1].pair_count : 0;
}

/* Goes on to the next frame. False at the end, and then the frame is as it was. */
static inline bool spop_next_frame(struct spop_frames *f)
{
    const struct spop_row *row;
    uint64_t message_count, pair_count;

    if (f->next_row >= f->counts.frames)
        return false;
    row = &f->rows[f->next_row++];
    message_count = row->type == SPOP_NOTIFY ? row->count : 0;
    spop_frame_init(&f->frame, message_count > 0 ? f->messages + f->next_message : NULL, (size_t)message_count, NULL, 0);
    pair_count = row->type == SPOP_NOTIFY ? spop_inner_pairs_of(f->frame.messages, message_count) : row->count;
    f->frame.pairs = pair_count > 0 ? f->pairs + f->next_pair : NULL;
    f->frame.pair_room = (size_t)pair_count;
    f->frame.head.type = row->type;
    f->frame.head.flags = SPOP_FIN;
    f->frame.head.stream_id = row->stream_id;
    f->frame.head.frame_id = row->frame_id;
    f->frame.head.message_count = message_count;
    f->frame.head.pair_count = pair_count;
    f->frame.bytes = spop_bytes_at(f->input, row->start, row->used);
    f->next_message += message_count;
    f->next_pair += pair_count;
    return true;
}

#ifdef __cplusplus
}
#endif

#endif
