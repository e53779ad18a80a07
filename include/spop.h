/* The SPOP codec's calls for C and C++. Link libspop, static or shared (tools/native-lib spop).
 *
 * This file has the names of all numbers, then the calls of the library, and at the end helpers that take structs in place of
 * numbers and lengths. spop_build.h stands on them: it builds frames name by name, and walks over what was read.
 *
 * Every call takes every input, ends, and does its own refusing. Unless its line says otherwise it answers a number, which has
 * a name in enum spop_refusal:
 *
 *    0  done            *at: the bytes used or written
 *    1  wait            the frame is not whole yet; *at: the bytes missing from its four length bytes, or then from the frame
 *    2  oversize        a frame's length bytes say more than the limit; *at: 4
 *    3  too soon        the bytes end inside what is read; *at: the end of the input or of the frame, or for a string or address
 *                       that is too short, right after its length number or type byte
 *    4  unknown         a frame's type is none of the six, or its flags are not known ones; *at: 4
 *    5  aborted         a frame has ABORT set; *at: 4
 *    6  the other's     a frame's type is one that the other side sends: 101 to 103 where HAProxy's frames are read, and 1 to 3 where
 *                       agents' are; *at: 4
 *    7  too large       a number over 2^64-1; *at: right after the byte that broke it
 *    8  no such type    a data type from 10 to 15; *at: right after the type byte
 *    9  repeated        a key that an earlier pair has; *at: read, right after the second pair; written, the record's index
 *   10  table full      a table has no room for a record; *at: right after the pair or action, for a message right after its count byte,
 *                       and for a row right after its frame
 *   11  no room         the output is too short; *at: 0
 *   12  over the limit  the frame to be written is longer than the limit allows; *at: 0
 *   13  size too small  a frame size is under 256; *at: 0
 *   14  not writable    a number outside its field; *at: the record's index, 0 for metadata and for a value on its own
 *   15  not UTF-8       a text is not well-formed; *at: the same
 *   16  outside         a record points outside the buffer, or the table has fewer; *at: the record's index, or 0
 *   17  too many        a message with more than 255 arguments; *at: the message's index
 *   18  unknown action  an action is neither set nor unset, its argument count is not its own, or its scope is above 4; *at: right
 *                       after that byte
 *   19  not fitting     a number whose tenth byte is above 15; *at: right after that byte
 *
 * *at is always set. Whatever else is lent changes only after 0: of an output the bytes that are written, and of a table the
 * numbers of the records that were read. spop_read_frames never answers 0, and says itself what changes.
 *
 * No pointer may be null, also where its length is 0 (it need not point at anything then), and what a call may change must not
 * overlap what else is lent to it. Lengths are counted in elements. Calls keep no state, so threads need no lock. The helpers take
 * null too, as an empty container gives it.
 */
#ifndef SPOP_H
#define SPOP_H

#include <stdbool.h>
#include <stddef.h>
#include <stdint.h>
#include <string.h>

#ifdef __cplusplus
extern "C" {
#endif

/* The numbers and the fields of the records are made by tools/boundary. */

/* What a call answers. */
enum spop_refusal {
    SPOP_DONE = 0,
    SPOP_WAIT = 1,
    SPOP_OVERSIZE = 2,
    SPOP_TOO_SOON = 3,
    SPOP_UNKNOWN = 4,
    SPOP_ABORTED = 5,
    SPOP_AGENTS = 6,
    SPOP_TOO_LARGE = 7,
    SPOP_NO_TYPE = 8,
    SPOP_MET_TWICE = 9,
    SPOP_TABLE_FULL = 10,
    SPOP_NO_ROOM = 11,
    SPOP_OVER_LIMIT = 12,
    SPOP_SIZE_TOO_SMALL = 13,
    SPOP_NOT_WRITABLE = 14,
    SPOP_NOT_TEXT = 15,
    SPOP_OUTSIDE = 16,
    SPOP_TOO_MANY = 17,
    SPOP_UNKNOWN_ACTION = 18,
    SPOP_NOT_FITTING = 19
};

/* The kinds of a value. */
enum spop_kind {
    SPOP_KIND_NULL = 0,
    SPOP_KIND_BOOL = 1,
    SPOP_KIND_I32 = 2,
    SPOP_KIND_U32 = 3,
    SPOP_KIND_I64 = 4,
    SPOP_KIND_U64 = 5,
    SPOP_KIND_IPV4 = 6,
    SPOP_KIND_IPV6 = 7,
    SPOP_KIND_STRING = 8,
    SPOP_KIND_BINARY = 9
};

/* The types of a frame. Those from 101 on are an agent's. */
enum spop_frame_type {
    SPOP_HAPROXY_HELLO = 1,
    SPOP_HAPROXY_DISCONNECT = 2,
    SPOP_NOTIFY = 3,
    SPOP_AGENT_HELLO = 101,
    SPOP_AGENT_DISCONNECT = 102,
    SPOP_ACK = 103
};

/* The flags of a frame. */
enum spop_frame_flag {
    SPOP_FIN = 1,
    SPOP_ABORT = 2
};

/* What an action does. */
enum spop_action_type {
    SPOP_SET_VAR = 1,
    SPOP_UNSET_VAR = 2
};

/* How long an action's variable lives. */
enum spop_scope {
    SPOP_SCOPE_PROCESS = 0,
    SPOP_SCOPE_SESSION = 1,
    SPOP_SCOPE_TRANSACTION = 2,
    SPOP_SCOPE_REQUEST = 3,
    SPOP_SCOPE_RESPONSE = 4
};

/* Limits to lend, for a frame without its four length bytes: the ceiling, and the agreed size of a frame. A call takes any limit
 * of 32 bits. */
enum {
    SPOP_MAX_FRAME = 1048576,
    SPOP_AGREED_FRAME = 16384
};

/* How many numbers a value has, and each record of a table. */
enum {
    SPOP_VALUE_WIDTH = 4,
    SPOP_MESSAGE_WIDTH = 4,
    SPOP_PAIR_WIDTH = 6,
    SPOP_ACTION_WIDTH = 8,
    SPOP_ROW_WIDTH = 7,
    SPOP_VERSION_WIDTH = 4
};

/* The numbers of records by name, in the order of the tables. A table of records is lent as the table of numbers that it is: a
 * record is numbers of 64 bits and nothing else, so nothing stands between them or between two records (asserted below), a pointer
 * to a record is one to its first number, and each number is only ever read and written as the uint64_t that it is. */

/* A value's four numbers. */
struct spop_value {
    uint64_t kind;
    uint64_t a;
    uint64_t b;
    uint64_t flags;
};

/* A message's four numbers. */
struct spop_message {
    uint64_t name_start;
    uint64_t name_len;
    uint64_t first_pair;
    uint64_t pair_count;
};

/* A pair's six numbers. */
struct spop_pair {
    uint64_t key_start;
    uint64_t key_len;
    uint64_t kind;
    uint64_t a;
    uint64_t b;
    uint64_t flags;
};

/* An action's eight numbers. */
struct spop_action {
    uint64_t action;
    uint64_t scope;
    uint64_t name_start;
    uint64_t name_len;
    uint64_t kind;
    uint64_t a;
    uint64_t b;
    uint64_t flags;
};

/* The seven numbers of a row, which is a frame among those of a buffer: where it starts there, its bytes, and its records. first is
 * an index into the table of messages for a NOTIFY, and else into that of pairs, and count says how many it has there. */
struct spop_row {
    uint64_t start;
    uint64_t used;
    uint64_t type;
    uint64_t stream_id;
    uint64_t frame_id;
    uint64_t first;
    uint64_t count;
};

/* The six numbers of a frame's head. */
struct spop_head {
    uint64_t type;
    uint64_t flags;
    uint64_t stream_id;
    uint64_t frame_id;
    uint64_t message_count;
    uint64_t pair_count;
};

/* The six numbers of an agent's frame's head. */
struct spop_agent_head {
    uint64_t type;
    uint64_t flags;
    uint64_t stream_id;
    uint64_t frame_id;
    uint64_t pair_count;
    uint64_t action_count;
};

/* The four counts of a buffer that was read: its frames, their messages, their pairs, and the bytes that they took together. */
struct spop_counts {
    uint64_t frames;
    uint64_t messages;
    uint64_t pairs;
    uint64_t used;
};

/* An announced version's four numbers. The last is 0 exactly where it has no pre-release part: of 2.0.0-rc.1 it is any other. */
struct spop_announced {
    uint64_t major;
    uint64_t minor;
    uint64_t patch;
    uint64_t pre_release;
};

/* The three numbers of the version that is chosen. */
struct spop_version {
    uint64_t major;
    uint64_t minor;
    uint64_t patch;
};

#if defined(__cplusplus) && __cplusplus >= 201103L
#define SPOP_HOLDS(name, condition) static_assert(condition, #name)
#elif defined(__STDC_VERSION__) && __STDC_VERSION__ >= 201112L
#define SPOP_HOLDS(name, condition) _Static_assert(condition, #name)
#else
#define SPOP_HOLDS(name, condition) typedef char name[(condition) ? 1 : -1]
#endif
SPOP_HOLDS(spop_value_is_four_numbers, sizeof(struct spop_value) == SPOP_VALUE_WIDTH * sizeof(uint64_t));
SPOP_HOLDS(spop_message_is_four_numbers, sizeof(struct spop_message) == SPOP_MESSAGE_WIDTH * sizeof(uint64_t));
SPOP_HOLDS(spop_pair_is_six_numbers, sizeof(struct spop_pair) == SPOP_PAIR_WIDTH * sizeof(uint64_t));
SPOP_HOLDS(spop_action_is_eight_numbers, sizeof(struct spop_action) == SPOP_ACTION_WIDTH * sizeof(uint64_t));
SPOP_HOLDS(spop_row_is_seven_numbers, sizeof(struct spop_row) == SPOP_ROW_WIDTH * sizeof(uint64_t));
SPOP_HOLDS(spop_counts_are_four_numbers, sizeof(struct spop_counts) == 4 * sizeof(uint64_t));
SPOP_HOLDS(spop_head_is_six_numbers, sizeof(struct spop_head) == 6 * sizeof(uint64_t));
SPOP_HOLDS(spop_announced_is_four_numbers, sizeof(struct spop_announced) == SPOP_VERSION_WIDTH * sizeof(uint64_t));
SPOP_HOLDS(spop_agent_head_is_six_numbers, sizeof(struct spop_agent_head) == 6 * sizeof(uint64_t));
SPOP_HOLDS(spop_version_is_three_numbers, sizeof(struct spop_version) == 3 * sizeof(uint64_t));
#undef SPOP_HOLDS

/* A sentence for what a call answers. */
static inline const char *spop_refusal_text(uint64_t number)
{
    switch (number) {
    case SPOP_DONE: return "done";
    case SPOP_WAIT: return "the frame is not whole yet";
    case SPOP_OVERSIZE: return "the frame's length is over the limit";
    case SPOP_TOO_SOON: return "the bytes end too soon";
    case SPOP_UNKNOWN: return "the frame's type or flags are unknown";
    case SPOP_ABORTED: return "the frame has ABORT set";
    case SPOP_AGENTS: return "the frame is one that the other side sends";
    case SPOP_TOO_LARGE: return "a number is over 64 bits";
    case SPOP_NO_TYPE: return "a data type is none of 0 to 9";
    case SPOP_MET_TWICE: return "a key is met twice";
    case SPOP_TABLE_FULL: return "a table has no room for a record";
    case SPOP_NO_ROOM: return "the output is too short";
    case SPOP_OVER_LIMIT: return "the frame to be written is over the limit";
    case SPOP_SIZE_TOO_SMALL: return "a frame size is under 256";
    case SPOP_NOT_WRITABLE: return "a record or the frame's metadata is not writable";
    case SPOP_NOT_TEXT: return "a text is not UTF-8";
    case SPOP_OUTSIDE: return "a record points outside its buffer, or a count outside its table";
    case SPOP_TOO_MANY: return "a message has more than 255 arguments";
    case SPOP_UNKNOWN_ACTION: return "an action, its argument count or its scope is unknown";
    case SPOP_NOT_FITTING: return "a number's tenth byte is above 15";
    default: return "no such number";
    }
}

/* The calls of the library. */

/* Made by tools/boundary, but for the comments: */

/* Answers how many bytes the written form of n has: 1 to 10. */
uint64_t spop_varint_len(uint64_t n);

/* Writes n at the front of out. 0 with the length, or 11. */
uint64_t spop_encode_varint(uint64_t n, uint8_t *out, size_t out_len, uint64_t *at);

/* Reads the number at the front of input. 0 with *value set and the bytes used, or 3, 7 or 19. Bytes after the number are not
 * looked at. The bytes used are those that spop_encode_varint writes for it. */
uint64_t spop_decode_varint(const uint8_t *input, size_t input_len, uint64_t *value, uint64_t *at);

/* Whether the bytes are well-formed UTF-8 (Unicode, table 3-7). */
bool spop_is_utf8(const uint8_t *bytes, size_t len);

/* Whether the two have the same lossy text, in which each maximal subpart of an ill-formed sequence is U+FFFD (EF BF BD). Keys
 * are compared so. For well-formed texts it is equality of bytes. */
bool spop_same_text(const uint8_t *a, size_t a_len, const uint8_t *b, size_t b_len);

/* The same the plain way: writes the lossy text of a at the front of a_text and that of b at the front of b_text, and compares
 * their bytes. 0 with *at 0 and *same set to what spop_same_text answers, or 11 where either text has no room; 3 * a_len and
 * 3 * b_len bytes always are enough. After 11 neither buffer has changed, and *same has not. */
uint64_t spop_same_text_plain(const uint8_t *a, size_t a_len, const uint8_t *b, size_t b_len, uint8_t *a_text, size_t a_text_len,
                              uint8_t *b_text, size_t b_text_len, bool *same, uint64_t *at);

/* Writes the lossy text of the bytes at the front of out. 0 with its length, at most 3 * len, or 11. */
uint64_t spop_lossy_text(const uint8_t *bytes, size_t len, uint8_t *out, size_t out_len, uint64_t *at);

/* A value is four numbers: kind, a, b and flags. a and b are
 *
 *    0 null     0, 0               1 bool    0 or 1, 0
 *    2 i32      the number, 0      3 u32     the number, 0        (signed numbers are sign-extended to 64 bits)
 *    4 i64      the number, 0      5 u64     the number, 0
 *    6 IPv4     start, 4           7 IPv6    start, 16
 *    8 string   start, length      9 binary  start, length
 *
 * The flags are the upper four bits of the type byte, 0 to 15, which SPOP leaves unused, and a writer puts them back. A bool's a is
 * the lowest of them; its others are passed over where it is read, and its flags here are 0. */

/* Reads the value at the front of input; a start counts from its first byte. 0 with value set and the bytes used, or 3, 7, 8
 * or 19. */
uint64_t spop_typed_data(const uint8_t *input, size_t input_len, uint64_t value[SPOP_VALUE_WIDTH], uint64_t *at);

/* Answers how many bytes the written form of a value has, whose start counts in buffer; 0 where it has none. */
uint64_t spop_value_len(const uint64_t value[SPOP_VALUE_WIDTH], const uint8_t *buffer, size_t buffer_len);

/* What a value is refused with before it is written: 14, 16 or, for a string, 15, the first of these that holds; else 0. */
uint64_t spop_check_value(const uint64_t value[SPOP_VALUE_WIDTH], const uint8_t *buffer, size_t buffer_len);

/* Writes a value at the front of out. 0 with its length, or 14, 16, 11, the first of these that holds. Whether a string is UTF-8
 * is spop_check_value's to say. */
uint64_t spop_write_value(const uint64_t value[SPOP_VALUE_WIDTH], const uint8_t *buffer, size_t buffer_len, uint8_t *out,
                          size_t out_len, uint64_t *at);

/* A pair is six numbers: key start, key length, and a value's kind, a, b and flags. */

/* Reads the pair at the front of input: its key, a string of any bytes, and its value. Starts count from the input's first byte.
 * 0 with pair set and the bytes used; else the key's 3, 7 or 19, or then the value's 3, 7, 8 or 19. Bytes after the pair are
 * not looked at. */
uint64_t spop_read_pair(const uint8_t *input, size_t input_len, uint64_t pair[SPOP_PAIR_WIDTH], uint64_t *at);

/* Reads the frame at the front of input, one that HAProxy sends: a HAPROXY-HELLO (type 1) or a HAPROXY-DISCONNECT (2), which hold
 * a KV list, or a NOTIFY (3), which holds messages. There may be none of either. limit is the most that the frame's length bytes
 * may say, which is its length without these four. Bytes after the frame are not looked at.
 *
 * It answers 0, and *at is the bytes used, the frame's with its length bytes; or the first of these that holds:
 *
 *     1              there are fewer than four bytes; *at: how many of the four are missing
 *     2  at 4        the length bytes say more than limit; the rest is not waited for
 *     1              there are fewer bytes than the length bytes say; *at: how many are missing
 *     3  at 4        the frame has no type byte, since its length is 0
 *     4  at 4        its type is none of 1, 2, 3, 101, 102 and 103
 *     3  at 5        it has fewer than four bytes of flags
 *     4  at 4        FIN is not set, or a flag beside FIN and ABORT is
 *     5  at 4        ABORT is set
 *     3, 7, 19       its stream id, or then its frame id, cannot be read
 *     6  at 4        its type is 101 to 103
 *         in a KV list, for each pair in turn:
 *     3, 7, 8, 19    its key, or then its value, cannot be read
 *     9              an earlier key has the same lossy text (spop_same_text says which have); *at: right after this pair
 *    10              pairs has no room for it; *at: right after it
 *         in a NOTIFY, for each message in turn:
 *     3, 7, 19       its name cannot be read
 *     3              it has no count byte; *at: the frame's end
 *    10              messages has no room for it; *at: right after its count byte
 *         and then for each of its arguments in turn, which are pairs, and whose keys may repeat:
 *     3, 7, 8, 19    its key, or then its value, cannot be read
 *    10              pairs has no room for it; *at: right after it
 *
 * Where no place stands here, 3, 7, 8 and 19 have the one that the head of this file gives. Places and starts count from the frame's
 * first length byte, input[0].
 *
 * After 0, head is the type, the flags (FIN alone, so 1), the stream id, the frame id, how many messages there are, and how many
 * pairs. The records are at the front of the tables, in the order of their bytes, and the numbers behind them stay. A message has
 * four: name start, name length, first pair (how many pairs the messages before it have, also where it has none itself) and pair
 * count. A pair has six, as above; those of a NOTIFY are the arguments of all its messages, one message after the other. A KV list
 * has no messages. Names, keys and strings may be any bytes. After any other number neither head nor a table has changed.
 *
 * messages has room for messages_len / 4 messages, and pairs for pairs_len / 6 pairs, rounded down. Either may have none. A record
 * takes two bytes of its frame or more, so with room for limit / 2 in each table the answer is never 10. In a KV list each key is
 * compared with those before it, so its time grows with the square of the pairs that there is room for.
 *
 * To go on: after 0 the next frame is *at bytes further, at input + *at with input_len - *at bytes. After 1, call again with the
 * same bytes and *at more behind them; where the four length bytes were not there, it may then answer 1 once more, for the rest.
 * After 3 to 10 the frame is whole: whoever passes it over goes on four bytes further than its length bytes say. */
uint64_t spop_read_frame(const uint8_t *input, size_t input_len, uint32_t limit, uint64_t *messages, size_t messages_len,
                         uint64_t *pairs, size_t pairs_len, uint64_t head[6], uint64_t *at);

/* Reads a frame as spop_read_frame does, with a table of records for the pairs, which has room for pairs_len of them. The answer,
 * *at, head and messages are those that spop_read_frame gives with a table of six times as many numbers. After 0 the records are
 * at the front of pairs, with the numbers that it gives, and those behind them stay. After any other number none has changed. */
uint64_t spop_read_frame_records(const uint8_t *input, size_t input_len, uint32_t limit, uint64_t *messages, size_t messages_len,
                                 struct spop_pair *pairs, size_t pairs_len, uint64_t head[6], uint64_t *at);

/* Reads the frame at the front of input, one that an agent sends: an AGENT-HELLO (type 101) or an AGENT-DISCONNECT (102), which hold
 * a KV list, or an ACK (103), which holds actions. It answers as spop_read_frame does, with these changes: 6 is for types 1 to 3, and
 * where spop_read_frame has messages, in an ACK there is for each action in turn:
 *
 *     3              its action byte, its argument count or its scope is missing; *at: the frame's end
 *    18              its action byte is neither 1 nor 2, its argument count is not 3 for a set and 2 for an unset, or its scope is above
 *                    4: each byte is tested before the next is asked for; *at: right after it
 *     3, 7, 8, 19    its name, or then a set's value, cannot be read
 *    10              actions has no room for it; *at: right after it
 *
 * After 0, head is the type, the flags, the stream id, the frame id, how many pairs there are, and how many actions. An action has eight
 * numbers: 1 for set or 2 for unset, scope, name start, name length, and a value's kind, a, b and flags, which are 0 for unset. A KV
 * list has no actions, and an ACK no pairs. pairs has room for pairs_len / 6 pairs, and actions for actions_len / 8 actions, rounded
 * down. */
uint64_t spop_read_agent_frame(const uint8_t *input, size_t input_len, uint32_t limit, uint64_t *pairs, size_t pairs_len,
                               uint64_t *actions, size_t actions_len, uint64_t head[6], uint64_t *at);

/* Reads all frames at the front of input, a receive buffer in one call: one after the other as spop_read_frame does, each from where
 * the one before it ended, with the same limit and with the room that is left in the tables. It ends at the frame that is not read,
 * if only since there is no byte left, and answers what stopped it, so never 0:
 *
 *     1              that frame is not whole yet; *at: how many bytes are missing, 4 where there is none
 *     2 to 10, 19    spop_read_frame refuses it so, with the room that is left in messages and pairs
 *    10              it would be read, and rows has no room for it; *at: right after it
 *
 * So a frame that is waited for or refused is answered so too where rows is full. Places count from that frame's own first length
 * byte, which is input[counts[3]].
 *
 * counts is always set: how many frames were read, how many messages and pairs they have together, and how many bytes they took. Each
 * frame that was read has a row: its start in input, its bytes with the length bytes, its type, stream id, frame id, the index of its
 * first message in messages (type 3) or of its first pair in pairs (types 1 and 2), and how many of these it has; where it has none,
 * the first is how many the frames before it have. The first row starts at 0, and each other where the one before it ends. The
 * records are those of spop_read_frame, those of each frame behind those of the frames before it: starts count from the frame's own
 * first length byte, and a message's first pair from its frame's first pair, which is how many pairs the frames before it have.
 *
 * The frame that stopped it changes nothing, and all numbers behind the rows and records that are counted stay. rows has room for
 * rows_len / 7 frames, messages for messages_len / 4 messages and pairs for pairs_len / 6 pairs, rounded down; each may have none. A
 * frame takes 11 bytes or more and a record two, so with room for input_len / 11 rows and input_len / 2 records the answer is
 * never 10.
 *
 * To go on: after 1, call again with the bytes from input[counts[3]] on and *at more behind them. After a 10 with a frame read, call
 * again with the bytes from there on, once the tables are free; without one the tables are too small for it. Any other refusal is that
 * frame's, as after spop_read_frame. */
uint64_t spop_read_frames(const uint8_t *input, size_t input_len, uint32_t limit, uint64_t *rows, size_t rows_len,
                          uint64_t *messages, size_t messages_len, uint64_t *pairs, size_t pairs_len, uint64_t counts[4],
                          uint64_t *at);

/* The writers of frames take records in a table of numbers, so many of them, whose starts count in buffer; and a limit for the
 * frame's length without its four length bytes. They answer, the first of these that holds: 14 for the metadata (type, flags and
 * numbers of stream and frame); 16 for more records than the table has; for the first record that is refused its number, with its
 * index in *at; 12; 11. The records are written in their order. */

/* Writes a KV frame: type 1 or 2, or 101 or 102 with FIN alone and both numbers 0. A pair has six numbers, as above. Its refusals,
 * in this order: 14; 16 and 15 for its key; 16 and 15 for its value; 9 where an earlier key is the same text. */
uint64_t spop_write_kv(uint64_t type, bool fin, bool abort, uint64_t stream_id, uint64_t frame_id, uint32_t limit,
                       const uint8_t *buffer, size_t buffer_len, const uint64_t *pairs, size_t pairs_len, uint64_t pair_count,
                       uint8_t *out, size_t out_len, uint64_t *at);

/* Writes an action frame, type 103, with FIN alone. An action has eight numbers: 1 set or 2 unset, scope 0 to 4 (process, session,
 * transaction, request, response), name start, name length, and a value's kind, a, b and flags, which are 0 for an unset. An
 * action's refusals, in this order: 14; 16 and 15 for its name; 16 and 15 for its value. */
uint64_t spop_write_actions(bool fin, bool abort, uint64_t stream_id, uint64_t frame_id, uint32_t limit, const uint8_t *buffer,
                            size_t buffer_len, const uint64_t *actions, size_t actions_len, uint64_t action_count, uint8_t *out,
                            size_t out_len, uint64_t *at);

/* Writes a NOTIFY frame, type 3, with FIN alone. A message has four numbers: name start, name length, first pair (how many pairs
 * the messages before it have) and pair count, which is at most 255. A pair has six, as above; its key is the argument's name.
 * Names may be empty and may repeat. The pairs of the messages follow each other without a gap: the first message's run starts at
 * pair 0, each other run where the one before it ends, and the last ends at pair_count.
 *
 * It answers, the first of these that holds:
 *
 *    14  at 0         the flags are not FIN alone
 *    16  at 0         the message table has fewer than message_count, or then the pair table fewer than pair_count
 *    14  at 0         there are pairs and no message
 *        for each message in turn, at its index:
 *    14               its run does not start where the one before it ends, or it is the last and does not end at pair_count
 *    17               it has more than 255 arguments
 *    16, 15           its name is outside the buffer, or not UTF-8
 *        when all messages have passed, for each pair in turn, at its index in the pair table:
 *    14               a number outside its field
 *    16, 15           its key is outside the buffer, or not UTF-8
 *    16, 15           its value is outside the buffer, or a string that is not UTF-8
 *    12  at 0         the frame is over the limit
 *    11  at 0         the output is too short
 *
 * A message and a pair may have the same index: 14, 15 and 16 do not say which of the two tables they speak of. */
uint64_t spop_write_notify(bool fin, bool abort, uint64_t stream_id, uint64_t frame_id, uint32_t limit, const uint8_t *buffer,
                           size_t buffer_len, const uint64_t *messages, size_t messages_len, uint64_t message_count,
                           const uint64_t *pairs, size_t pairs_len, uint64_t pair_count, uint8_t *out, size_t out_len,
                           uint64_t *at);

/* The frame size that both sides can keep to: 0 with *at the smaller one, or 13 where either is under 256. */
uint64_t spop_negotiate_max_frame_size(uint32_t theirs, uint32_t ours, uint64_t *at);

/* Each four numbers of versions are an announced version, as struct spop_announced has them; one to three left over are not read.
 * True where one of them has the major number 2 and does not rank below 2.0.0, as 2.0.0-rc.1 does: its last number is 0, or its
 * minor or patch is above 0. Then version is set to 2, 0, 0; else it stays. */
bool spop_negotiate_version(const uint64_t *versions, size_t versions_len, uint64_t version[3]);

/* Made until here. */

/* The helpers. Each is one of the calls above, with its answer, and takes the structs: bytes have their length with them, and a
 * table its count of records, from which the count of its numbers is made. They are named get where the call reads and put where
 * it writes; of those no two neighbouring words are both numbers, which could change places unseen.
 *
 * A null pointer is taken for what has no element, whatever is said of its length: so an empty container may be lent as it is. */

/* How many elements an array has; compilers warn of a pointer here. */
#define SPOP_COUNT(array) (sizeof(array) / sizeof *(array))

/* Bytes that are lent to be read. */
struct spop_bytes {
    const uint8_t *start;
    size_t len;
};

/* Bytes that are lent to be written. */
struct spop_room {
    uint8_t *start;
    size_t len;
};

/* Which stream a frame is of, and which of its frames it is. */
struct spop_ids {
    uint64_t stream_id;
    uint64_t frame_id;
};

static inline struct spop_bytes spop_bytes_of(const void *start, size_t len)
{
    struct spop_bytes bytes;

    bytes.start = (const uint8_t *)start;
    bytes.len = len;
    return bytes;
}

/* The bytes of a C string, which must not be null, without the 0 at its end. */
static inline struct spop_bytes spop_text_of(const char *text)
{
    return spop_bytes_of(text, strlen(text));
}

static inline struct spop_room spop_room_of(void *start, size_t len)
{
    struct spop_room room;

    room.start = (uint8_t *)start;
    room.len = len;
    return room;
}

static inline struct spop_ids spop_ids_of(uint64_t stream_id, uint64_t frame_id)
{
    struct spop_ids ids;

    ids.stream_id = stream_id;
    ids.frame_id = frame_id;
    return ids;
}

/* The ids that an ACK takes from the NOTIFY that it answers. */
static inline struct spop_ids spop_head_ids(const struct spop_head *head)
{
    return spop_ids_of(head->stream_id, head->frame_id);
}

/* A part of bytes that a record points at, for one that was read from them: none where it is not inside. */
static inline struct spop_bytes spop_bytes_at(struct spop_bytes bytes, uint64_t start, uint64_t len)
{
    if (bytes.start == NULL || start > bytes.len || len > bytes.len - start)
        return spop_bytes_of(NULL, 0);
    return spop_bytes_of(bytes.start + start, (size_t)len);
}

/* What stands behind the first of some bytes: the input that is left after a frame of so many. */
static inline struct spop_bytes spop_bytes_behind(struct spop_bytes bytes, uint64_t used)
{
    return used <= bytes.len ? spop_bytes_at(bytes, used, bytes.len - used) : spop_bytes_of(NULL, 0);
}

/* Whether two are the same byte by byte. */
static inline bool spop_bytes_equal(struct spop_bytes a, struct spop_bytes b)
{
    return a.len == b.len && (a.len == 0 || memcmp(a.start, b.start, a.len) == 0);
}

/* Whether bytes are those of a C string. */
static inline bool spop_bytes_are(struct spop_bytes bytes, const char *text)
{
    return spop_bytes_equal(bytes, spop_text_of(text));
}

/* What is named spop_inner is for the helpers' own use. */

/* What is lent in place of null. Its length is 0 then, so it is neither read nor written. */
static inline uint64_t *spop_inner_nothing(void)
{
    static uint64_t nothing;

    return &nothing;
}

static inline struct spop_bytes spop_inner_bytes(struct spop_bytes bytes)
{
    return bytes.start != NULL ? bytes : spop_bytes_of(spop_inner_nothing(), 0);
}

static inline struct spop_room spop_inner_room(struct spop_room room)
{
    return room.start != NULL ? room : spop_room_of(spop_inner_nothing(), 0);
}

/* The numbers that a table of records is, and how many. */
static inline uint64_t *spop_inner_numbers(void *records)
{
    return records != NULL ? (uint64_t *)records : spop_inner_nothing();
}

static inline const uint64_t *spop_inner_const_numbers(const void *records)
{
    return records != NULL ? (const uint64_t *)records : spop_inner_nothing();
}

static inline size_t spop_inner_len(const void *records, size_t count, size_t width)
{
    return records != NULL ? count * width : 0;
}

/* spop_encode_varint. */
static inline uint64_t spop_put_number(uint64_t n, struct spop_room out, uint64_t *at)
{
    struct spop_room o = spop_inner_room(out);

    return spop_encode_varint(n, o.start, o.len, at);
}

/* spop_decode_varint. */
static inline uint64_t spop_get_number(struct spop_bytes input, uint64_t *value, uint64_t *at)
{
    struct spop_bytes i = spop_inner_bytes(input);

    return spop_decode_varint(i.start, i.len, value, at);
}

/* spop_is_utf8. */
static inline bool spop_bytes_are_text(struct spop_bytes bytes)
{
    struct spop_bytes b = spop_inner_bytes(bytes);

    return spop_is_utf8(b.start, b.len);
}

/* spop_same_text. */
static inline bool spop_texts_equal(struct spop_bytes a, struct spop_bytes b)
{
    struct spop_bytes x = spop_inner_bytes(a), y = spop_inner_bytes(b);

    return spop_same_text(x.start, x.len, y.start, y.len);
}

/* spop_same_text_plain. */
static inline uint64_t spop_put_both_texts(struct spop_bytes a, struct spop_bytes b, struct spop_room a_text,
                                           struct spop_room b_text, bool *same, uint64_t *at)
{
    struct spop_bytes x = spop_inner_bytes(a), y = spop_inner_bytes(b);
    struct spop_room p = spop_inner_room(a_text), q = spop_inner_room(b_text);

    return spop_same_text_plain(x.start, x.len, y.start, y.len, p.start, p.len, q.start, q.len, same, at);
}

/* spop_lossy_text. */
static inline uint64_t spop_put_lossy_text(struct spop_bytes bytes, struct spop_room out, uint64_t *at)
{
    struct spop_bytes b = spop_inner_bytes(bytes);
    struct spop_room o = spop_inner_room(out);

    return spop_lossy_text(b.start, b.len, o.start, o.len, at);
}

/* spop_typed_data. */
static inline uint64_t spop_get_value(struct spop_bytes input, struct spop_value *value, uint64_t *at)
{
    struct spop_bytes i = spop_inner_bytes(input);

    return spop_typed_data(i.start, i.len, (uint64_t *)(void *)value, at);
}

/* spop_value_len. */
static inline uint64_t spop_value_bytes(const struct spop_value *value, struct spop_bytes buffer)
{
    struct spop_bytes b = spop_inner_bytes(buffer);

    return spop_value_len((const uint64_t *)(const void *)value, b.start, b.len);
}

/* spop_check_value. */
static inline uint64_t spop_value_refusal(const struct spop_value *value, struct spop_bytes buffer)
{
    struct spop_bytes b = spop_inner_bytes(buffer);

    return spop_check_value((const uint64_t *)(const void *)value, b.start, b.len);
}

/* spop_write_value. */
static inline uint64_t spop_put_value(const struct spop_value *value, struct spop_bytes buffer, struct spop_room out, uint64_t *at)
{
    struct spop_bytes b = spop_inner_bytes(buffer);
    struct spop_room o = spop_inner_room(out);

    return spop_write_value((const uint64_t *)(const void *)value, b.start, b.len, o.start, o.len, at);
}

/* spop_read_pair. */
static inline uint64_t spop_get_pair(struct spop_bytes input, struct spop_pair *pair, uint64_t *at)
{
    struct spop_bytes i = spop_inner_bytes(input);

    return spop_read_pair(i.start, i.len, (uint64_t *)(void *)pair, at);
}

/* spop_read_frame, with tables that have room for so many records. */
static inline uint64_t spop_get_frame(struct spop_bytes input, uint32_t limit, struct spop_message *messages, size_t message_room,
                                      struct spop_pair *pairs, size_t pair_room, struct spop_head *head, uint64_t *at)
{
    struct spop_bytes i = spop_inner_bytes(input);

    return spop_read_frame(i.start, i.len, limit,
                           spop_inner_numbers(messages), spop_inner_len(messages, message_room, SPOP_MESSAGE_WIDTH),
                           spop_inner_numbers(pairs), spop_inner_len(pairs, pair_room, SPOP_PAIR_WIDTH),
                           (uint64_t *)(void *)head, at);
}

/* spop_read_frames, with tables that have room for so many rows and records. */
static inline uint64_t spop_get_frames(struct spop_bytes input, uint32_t limit, struct spop_row *rows, size_t row_room,
                                       struct spop_message *messages, size_t message_room, struct spop_pair *pairs,
                                       size_t pair_room, struct spop_counts *counts, uint64_t *at)
{
    struct spop_bytes i = spop_inner_bytes(input);

    return spop_read_frames(i.start, i.len, limit, spop_inner_numbers(rows), spop_inner_len(rows, row_room, SPOP_ROW_WIDTH),
                            spop_inner_numbers(messages), spop_inner_len(messages, message_room, SPOP_MESSAGE_WIDTH),
                            spop_inner_numbers(pairs), spop_inner_len(pairs, pair_room, SPOP_PAIR_WIDTH),
                            (uint64_t *)(void *)counts, at);
}

/* spop_read_agent_frame, with tables that have room for so many records. */
static inline uint64_t spop_get_agent_frame(struct spop_bytes input, uint32_t limit, struct spop_pair *pairs, size_t pair_room,
                                            struct spop_action *actions, size_t action_room, struct spop_agent_head *head,
                                            uint64_t *at)
{
    struct spop_bytes i = spop_inner_bytes(input);

    return spop_read_agent_frame(i.start, i.len, limit,
                                 spop_inner_numbers(pairs), spop_inner_len(pairs, pair_room, SPOP_PAIR_WIDTH),
                                 spop_inner_numbers(actions), spop_inner_len(actions, action_room, SPOP_ACTION_WIDTH),
                                 (uint64_t *)(void *)head, at);
}

/* spop_write_kv, with FIN alone and both ids 0, as a HELLO and a DISCONNECT have them. */
static inline uint64_t spop_put_kv(uint64_t type, struct spop_bytes buffer, const struct spop_pair *pairs, size_t pair_count,
                                   struct spop_room out, uint32_t limit, uint64_t *at)
{
    struct spop_bytes b = spop_inner_bytes(buffer);
    struct spop_room o = spop_inner_room(out);

    return spop_write_kv(type, true, false, 0, 0, limit, b.start, b.len, spop_inner_const_numbers(pairs),
                         spop_inner_len(pairs, pair_count, SPOP_PAIR_WIDTH), pair_count, o.start, o.len, at);
}

/* spop_write_actions, with FIN alone. */
static inline uint64_t spop_put_ack(struct spop_ids ids, struct spop_bytes buffer, const struct spop_action *actions,
                                    size_t action_count, struct spop_room out, uint32_t limit, uint64_t *at)
{
    struct spop_bytes b = spop_inner_bytes(buffer);
    struct spop_room o = spop_inner_room(out);

    return spop_write_actions(true, false, ids.stream_id, ids.frame_id, limit, b.start, b.len, spop_inner_const_numbers(actions),
                              spop_inner_len(actions, action_count, SPOP_ACTION_WIDTH), action_count, o.start, o.len, at);
}

/* spop_write_notify, with FIN alone. */
static inline uint64_t spop_put_notify(struct spop_ids ids, struct spop_bytes buffer,
                                       const struct spop_message *messages, size_t message_count,
                                       const struct spop_pair *pairs, size_t pair_count,
                                       struct spop_room out, uint32_t limit, uint64_t *at)
{
    struct spop_bytes b = spop_inner_bytes(buffer);
    struct spop_room o = spop_inner_room(out);

    return spop_write_notify(true, false, ids.stream_id, ids.frame_id, limit, b.start, b.len, spop_inner_const_numbers(messages),
                             spop_inner_len(messages, message_count, SPOP_MESSAGE_WIDTH), message_count,
                             spop_inner_const_numbers(pairs), spop_inner_len(pairs, pair_count, SPOP_PAIR_WIDTH), pair_count,
                             o.start, o.len, at);
}

/* spop_negotiate_version. */
static inline bool spop_choose_version(const struct spop_announced *versions, size_t version_count, struct spop_version *version)
{
    return spop_negotiate_version(spop_inner_const_numbers(versions), spop_inner_len(versions, version_count, SPOP_VERSION_WIDTH),
                                  (uint64_t *)(void *)version);
}

#ifdef __cplusplus
}
#endif

#endif
