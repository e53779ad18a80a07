"""The frames between HAProxy and its agents (SPOP), read and written by the proved library libspop.

    for frame in spop.frames(connection):
        for message in frame.messages:
            for pair in message.arguments:
                print(pair.key, pair.value)

Messages, arguments and actions keep their order. A call answers a value, or raises Refused with the library's number, place and
text, or Incomplete with the count of bytes that are missing. What is wrong with a Python value before the library sees it is a
TypeError or a ValueError. No call keeps any state, so threads need no lock.
"""
import io
import operator
from collections.abc import MappingView, Set
from ctypes import c_bool, c_uint8, c_uint64, string_at
from enum import IntEnum
from ipaddress import IPv4Address, IPv6Address
from typing import (Any, Callable, ClassVar, Dict, Iterable, Iterator, List, Mapping, NamedTuple, Optional, Sequence, Tuple, Type,
                    Union)

from . import _calls

__version__ = "0.1.0"
__all__ = [
    "AGREED_FRAME", "Action", "AgentFrame", "Error", "Flag", "Frame", "FrameType", "Frames", "FramesRead", "I32", "I64", "Incomplete",
    "Kind", "MAX_FRAME", "Message", "MessageRecord", "Pair", "PairRecord", "Records", "Refusal", "Refused", "Scope", "SetVar", "Text",
    "U32", "U64", "UnsetVar", "Value", "check_value", "decode_varint", "encode_varint", "frames", "is_utf8", "kind_of", "lossy_text",
    "negotiate_max_frame_size", "negotiate_version", "read_agent_frame", "read_frame", "read_frame_records", "read_frames",
    "read_pair", "refusal_text", "same_text", "same_text_plain", "typed_data", "value_len", "varint_len", "write_ack",
    "write_disconnect", "write_hello", "write_kv", "write_notify", "write_value",
]

_lib = _calls.load()

# The names of the numbers

MAX_FRAME = 1048576
"""The most bytes of a frame, without its four length bytes, that are read unless a limit is given."""
AGREED_FRAME = 16384
"""The agreed size of a frame, without its four length bytes: the limit of what is written unless one is given."""


class Refusal(IntEnum):
    """What the library answers."""

    DONE = 0
    WAIT = 1
    OVERSIZE = 2
    TOO_SOON = 3
    UNKNOWN = 4
    ABORTED = 5
    AGENTS = 6
    TOO_LARGE = 7
    NO_TYPE = 8
    MET_TWICE = 9
    TABLE_FULL = 10
    NO_ROOM = 11
    OVER_LIMIT = 12
    SIZE_TOO_SMALL = 13
    NOT_WRITABLE = 14
    NOT_TEXT = 15
    OUTSIDE = 16
    TOO_MANY = 17
    UNKNOWN_ACTION = 18
    NOT_FITTING = 19


class Kind(IntEnum):
    """What a value is: the lower four bits of its type byte."""

    NULL = 0
    BOOL = 1
    I32 = 2
    U32 = 3
    I64 = 4
    U64 = 5
    IPV4 = 6
    IPV6 = 7
    STRING = 8
    BINARY = 9


class FrameType(IntEnum):
    HAPROXY_HELLO = 1
    HAPROXY_DISCONNECT = 2
    NOTIFY = 3
    AGENT_HELLO = 101
    AGENT_DISCONNECT = 102
    ACK = 103


class Flag(IntEnum):
    """Of a frame."""

    FIN = 1
    ABORT = 2


class Action(IntEnum):
    SET_VAR = 1
    UNSET_VAR = 2


class Scope(IntEnum):
    """Of a variable."""

    PROCESS = 0
    SESSION = 1
    TRANSACTION = 2
    REQUEST = 3
    RESPONSE = 4


# Refusals

_TEXTS: Dict[int, str] = {
    Refusal.DONE: "done",
    Refusal.WAIT: "the frame is not whole yet",
    Refusal.OVERSIZE: "the frame's length is over the limit",
    Refusal.TOO_SOON: "the bytes end too soon",
    Refusal.UNKNOWN: "the frame's type or flags are unknown",
    Refusal.ABORTED: "the frame has ABORT set",
    Refusal.AGENTS: "the frame is one that the other side sends",
    Refusal.TOO_LARGE: "a number is over 64 bits",
    Refusal.NO_TYPE: "a data type is none of 0 to 9",
    Refusal.MET_TWICE: "a key is met twice",
    Refusal.TABLE_FULL: "a table has no room for a record",
    Refusal.NO_ROOM: "the output is too short",
    Refusal.OVER_LIMIT: "the frame to be written is over the limit",
    Refusal.SIZE_TOO_SMALL: "a frame size is under 256",
    Refusal.NOT_WRITABLE: "a record or the frame's metadata is not writable",
    Refusal.NOT_TEXT: "a text is not UTF-8",
    Refusal.OUTSIDE: "a record points outside its buffer, or a count outside its table",
    Refusal.TOO_MANY: "a message has more than 255 arguments",
    Refusal.UNKNOWN_ACTION: "an action, its argument count or its scope is unknown",
    Refusal.NOT_FITTING: "a number's tenth byte is above 15",
}


def refusal_text(number: int) -> str:
    """What a refusal's number means."""
    return _TEXTS.get(number, "no such number")


class Error(Exception):
    """Refused or Incomplete."""


class Refused(Error):
    """The library's refusal: its `number`, `place` and `text`.

    The place counts bytes from the first one that was lent, or is the index of a record: in a NOTIFY that is to be written an
    argument's counts over all messages. A frame that was refused while it was read has in `skip` how many bytes it has with its
    length bytes: the next one is so much further. From `frames` it has its bytes in `frame`; of one that is over the limit these are
    the length bytes.
    """

    def __init__(self, number: int, place: int, text: Optional[str] = None) -> None:
        self.number: int = Refusal(number) if number in _TEXTS else number
        self.place = place
        self.text = refusal_text(number) if text is None else text
        self.skip: Optional[int] = None
        self.frame = b""
        super().__init__(number, place, self.text)

    def __str__(self) -> str:
        return f"{int(self.number)} at {self.place}: {self.text}"


class Incomplete(Error):
    """A frame is not whole yet: `missing` is how many bytes are missing from its four length bytes, or then from the frame."""

    def __init__(self, missing: int) -> None:
        self.missing = missing
        super().__init__(missing)

    def __str__(self) -> str:
        return f"bytes missing: {self.missing}"


# Values

class Text(str):
    """A name, a key or a string that was read: its lossy text, and in `raw` the bytes as they stand in the frame.

    A writer takes the bytes. So text that was not UTF-8 is refused with 15 when it is written back, and never changed.
    """

    __slots__ = ("raw",)
    raw: bytes

    def __new__(cls, raw: bytes) -> "Text":
        try:
            text = str(raw, "utf-8")
        except UnicodeDecodeError:
            text = lossy_text(raw)
        self = super().__new__(cls, text)
        self.raw = raw
        return self

    def __getnewargs__(self) -> Tuple[bytes]:    # type: ignore[override]
        return (self.raw,)


class _Integer(int):
    """An int of a width. What is computed from it is a plain int."""

    kind: ClassVar[Kind]
    least: ClassVar[int]
    most: ClassVar[int]

    def __new__(cls, value: int) -> "_Integer":
        number = operator.index(value)
        _check_range(cls, number)
        return super().__new__(cls, number)


class I32(_Integer):
    """An int that is written as an i32."""

    kind, least, most = Kind.I32, -2**31, 2**31 - 1


class U32(_Integer):
    """An int that is written as a u32."""

    kind, least, most = Kind.U32, 0, 2**32 - 1


class I64(_Integer):
    """An int that is written as an i64."""

    kind, least, most = Kind.I64, -2**63, 2**63 - 1


class U64(_Integer):
    """An int that is written as a u64."""

    kind, least, most = Kind.U64, 0, 2**64 - 1


_INTEGERS: Dict[Kind, Type[_Integer]] = {width.kind: width for width in (I32, U32, I64, U64)}


def _check_range(width: Type[_Integer], number: int) -> None:
    if not width.least <= number <= width.most:
        raise ValueError(f"{number} is no {width.kind.name.lower()}: that has to be {width.least} to {width.most}")


Buffer = Union[bytes, bytearray, memoryview]
Name = Union[str, Buffer]
Plain = Union[None, bool, int, str, Buffer, IPv4Address, IPv6Address]


class Value(NamedTuple):
    """A value with its kind, and its flags, which are the upper four bits of its type byte: unused in SPOP, and 0 for a bool."""

    value: Plain
    kind: Kind
    flags: int = 0


Writable = Union[Plain, Value]


def kind_of(value: Plain) -> Kind:
    """The kind that a plain value is written as. An int without a width is an i64 where it fits, and else a u64."""
    if value is None:
        return Kind.NULL
    if isinstance(value, bool):
        return Kind.BOOL
    if isinstance(value, _Integer):
        return value.kind
    if isinstance(value, int):
        return Kind.I64 if value <= I64.most else Kind.U64
    for types, kind in _KINDS_OF_TYPES:
        if isinstance(value, types):
            return kind
    raise TypeError(f"a value of SPOP is None, bool, int, str, bytes, IPv4Address or IPv6Address, and not {type(value).__name__}")


_BUFFER = (bytes, bytearray, memoryview)
# What walks over a set or a dict: it gives what they have kept, in their order.
_WALKS = tuple(type(iter(x)) for x in (set(), {}.keys(), {}.values(), {}.items()))
_KINDS_OF_TYPES: Tuple[Tuple[Any, Kind], ...] = (
    (str, Kind.STRING), (_BUFFER, Kind.BINARY), (IPv4Address, Kind.IPV4), (IPv6Address, Kind.IPV6))


def _signed(number: int) -> int:
    return number - 2**64 if number >> 63 else number


# The value of each kind, from the bytes that were read and its a and b. Numbers are in range, so the widths need not test it.
_READ: Tuple[Callable[[bytes, int, int], Plain], ...] = (
    lambda lent, a, b: None,
    lambda lent, a, b: a == 1,
    lambda lent, a, b: int.__new__(I32, _signed(a)),
    lambda lent, a, b: int.__new__(U32, a),
    lambda lent, a, b: int.__new__(I64, _signed(a)),
    lambda lent, a, b: int.__new__(U64, a),
    lambda lent, a, b: IPv4Address(lent[a:a + b]),
    lambda lent, a, b: IPv6Address(lent[a:a + b]),
    lambda lent, a, b: Text(lent[a:a + b]),
    lambda lent, a, b: lent[a:a + b],
)
_KINDS = tuple(Kind)


class Pair(NamedTuple):
    """An argument of a message, or an item of a KV list.

    `value` is a plain value: None, bool, int (an I32, U32, I64 or U64, which keeps its width), str (a Text), bytes, IPv4Address
    or IPv6Address.
    """

    key: Text
    value: Plain
    kind: Kind
    flags: int = 0

    @property
    def typed(self) -> Value:
        """The value with its kind and flags, as a writer takes it."""
        return Value(self.value, self.kind, self.flags)

    @property
    def raw(self) -> bytes:
        """The bytes of a string, a binary or an address; of the other kinds none."""
        if isinstance(self.value, (IPv4Address, IPv6Address)):
            return self.value.packed
        return _bytes_of(self.value) if isinstance(self.value, (str, *_BUFFER)) else b""


def _pair(lent: bytes, start: int, length: int, kind: int, a: int, b: int, flags: int) -> Pair:
    return Pair(Text(lent[start:start + length]), _READ[kind](lent, a, b), _KINDS[kind], flags)


# What is lent to the library. Arrays are of a few sizes, since ctypes makes a type for each.

_Head = c_uint64 * 6
_Counts = c_uint64 * 4
_ValueNumbers = c_uint64 * 4
_PairNumbers = c_uint64 * 6
_NUMBERS = tuple(c_uint64 * (64 << step) for step in range(22))
_BYTES = tuple(c_uint8 * (64 << step) for step in range(22))
_PAIRS = tuple(_calls.spop_pair * (64 << step) for step in range(22))


def _array(types: Sequence[Any], count: int) -> Any:
    """The type of an array with so many elements or more."""
    for kind in types:
        if count <= kind._length_:
            return kind
    return types[0]._type_ * count


def _lent(data: Buffer) -> bytes:
    return data if type(data) is bytes else bytes(memoryview(data))


def _whole(name: str, value: int, bits: int) -> int:
    """ctypes would cut a number that is too large."""
    number = operator.index(value)
    if not 0 <= number < 1 << bits:
        raise ValueError(f"{name} has to be 0 to 2**{bits}-1, and is {number}")
    return number


def _tell(number: int, place: int) -> None:
    if number != Refusal.DONE:
        raise Refused(number, place)


# Reading

class Message(NamedTuple):
    name: Text
    arguments: List[Pair]


class Frame(NamedTuple):
    """A frame that was read. `used` is how many bytes it took, with its length bytes.

    A NOTIFY has messages, and in `pairs` the arguments of all of them, one message after the other. A HAPROXY-HELLO and a
    HAPROXY-DISCONNECT have pairs alone.
    """

    type: FrameType
    flags: int
    stream_id: int
    frame_id: int
    used: int
    messages: List[Message]
    pairs: List[Pair]


class MessageRecord(NamedTuple):
    name_start: int
    name_len: int
    first_pair: int
    pair_count: int


class PairRecord(NamedTuple):
    key_start: int
    key_len: int
    kind: int
    a: int
    b: int
    flags: int


class Records(NamedTuple):
    """A frame as the library's records, whose starts count from the frame's first length byte."""

    type: FrameType
    flags: int
    stream_id: int
    frame_id: int
    used: int
    messages: List[MessageRecord]
    pairs: List[PairRecord]


def read_frame(data: Buffer, limit: int = MAX_FRAME, *, max_messages: Optional[int] = None,
               max_pairs: Optional[int] = None) -> Frame:
    """Reads the frame at the front of the bytes, one that HAProxy sends. Bytes behind it are not looked at.

    The limit is the most that its length bytes may say. There is room for all that a NOTIFY can have, unless the keywords ask for
    less: then one with more is refused with 10. In a KV list each key is compared with those before it, so its time grows with the
    square of their count: one of more than 4,160 keys is refused with 10, unless max_pairs asks for more.
    """
    lent = _lent(data)
    head, messages, numbers, used = _read(_lib.spop_read_frame, lent, limit, max_messages, max_pairs, _NUMBERS, 6)
    return _frame(lent, head, used, messages, numbers[:6 * head[5]])


def _frame(lent: bytes, head: Sequence[int], used: int, messages: List[MessageRecord], numbers: List[int]) -> Frame:
    """The frame at the front of the bytes, of its type, flags and ids, its messages, and the numbers of its pairs."""
    pairs = [_pair(lent, *numbers[k:k + 6]) for k in range(0, len(numbers), 6)]
    of_messages = [Message(Text(lent[record.name_start:record.name_start + record.name_len]),
                           pairs[record.first_pair:record.first_pair + record.pair_count]) for record in messages]
    return Frame(FrameType(head[0]), head[1], head[2], head[3], used, of_messages, pairs)


def read_frame_records(data: Buffer, limit: int = MAX_FRAME, *, max_messages: Optional[int] = None,
                       max_pairs: Optional[int] = None) -> Records:
    """Reads a frame as read_frame does, and gives its records: where everything stands in the bytes."""
    head, messages, table, used = _read(_lib.spop_read_frame_records, _lent(data), limit, max_messages, max_pairs, _PAIRS, 1)
    pairs = [PairRecord(p.key_start, p.key_len, p.kind, p.a, p.b, p.flags) for p in table[:head[5]]]
    return Records(FrameType(head[0]), head[1], head[2], head[3], used, messages, pairs)


_FIRST_ROOM = 64
# More keys than a frame of the agreed size can have. A KV list of a megabyte of them would take minutes.
_MOST_KEYS = 4160


def _most_pairs(lent: bytes, most: int) -> int:
    is_kv = lent[4:5] in (b"\x01", b"\x02", b"\x65", b"\x66")
    return min(most, _MOST_KEYS) if is_kv else most


def _read(call: Any, lent: bytes, limit: int, max_messages: Optional[int], max_pairs: Optional[int], types: Sequence[Any],
          width: int) -> Tuple[List[int], List[MessageRecord], Any, int]:
    """The head, the messages, the table of pairs, and the bytes used. A pair takes `width` elements of its table."""
    limit = _whole("limit", limit, 32)
    most = _most(lent, limit)
    most_messages = most if max_messages is None else min(most, _whole("max_messages", max_messages, 64))
    most_pairs = _most_pairs(lent, most) if max_pairs is None else min(most, _whole("max_pairs", max_pairs, 64))
    told, messages, pairs, used = _tables(call, lent, limit, (_NUMBERS, 4, most_messages), (types, width, most_pairs))
    return told, [MessageRecord(*messages[k:k + 4]) for k in range(0, 4 * told[4], 4)], pairs, used


def _most(lent: bytes, limit: int) -> int:
    """How many records there may be. Each takes two bytes of its frame or more. A frame that is not whole or too long has none that
    are read."""
    length = int.from_bytes(lent[:4], "big")
    return length // 2 if length <= min(limit, len(lent) - 4) else 0


def _tables(call: Any, lent: bytes, limit: int, first: Tuple[Sequence[Any], int, int],
            second: Tuple[Sequence[Any], int, int]) -> Tuple[List[int], Any, Any, int]:
    """The head, both tables, and the bytes used. A table has its types, the width of a record, and how many there may be.

    The tables begin small, and grow as long as 10 is answered and there may be more.
    """
    room = _FIRST_ROOM
    while True:
        lengths = [width * min(room, most) for _, width, most in (first, second)]
        tables = [_array(types, length)() for (types, _, _), length in zip((first, second), lengths)]
        head, at = _Head(), c_uint64()
        number = call(lent, len(lent), limit, tables[0], lengths[0], tables[1], lengths[1], head, at)
        if number != Refusal.TABLE_FULL or room >= max(first[2], second[2]):
            break
        room *= 8
    if number != Refusal.DONE:
        raise _stopped(lent, number, at.value)
    return head[:], tables[0], tables[1], at.value


def _stopped(lent: bytes, number: int, at: int) -> Error:
    """What the frame at the front of the bytes is answered with, where it is not read."""
    if number == Refusal.WAIT:
        return Incomplete(at)
    refused = Refused(number, at)
    refused.skip = 4 + int.from_bytes(lent[:4], "big")
    return refused


class FramesRead(NamedTuple):
    """The frames at the front of some bytes, in their order, and what stopped the reading there.

    `rest` is what is left: it begins with the frame that `stopped` speaks of, an Incomplete (where no byte is left four are missing)
    or a Refused, which is not raised.
    """

    frames: List[Frame]
    rest: bytes
    stopped: Error


# The most rows of one call, and the least bytes of a frame. Of records there are no more than a KV list may have keys.
_MOST_ROWS = 1024
_LEAST_FRAME = 11


def read_frames(data: Buffer, limit: int = MAX_FRAME) -> FramesRead:
    """Reads all frames at the front of the bytes, many by each call of the library. Each is read or refused as read_frame does it."""
    lent, limit, frames = _lent(data), _whole("limit", limit, 32), []
    while True:
        read, stopped = _frames_at(lent, limit)
        frames += read
        lent = lent[sum(frame.used for frame in read):]
        if isinstance(stopped, Refused) and stopped.number == Refusal.TABLE_FULL:
            # No room is left in these tables, which are free again for what is behind the next frame.
            try:
                frames.append(read_frame(lent, limit))
            except Refused as refused:
                return FramesRead(frames, lent, refused)
            lent = lent[frames[-1].used:]
        else:
            return FramesRead(frames, lent, stopped)


def _frames_at(lent: bytes, limit: int) -> Tuple[List[Frame], Error]:
    """What one call reads, and what stopped it."""
    room = min(len(lent) // 2, _MOST_KEYS)
    lengths = [7 * min(len(lent) // _LEAST_FRAME, _MOST_ROWS), 4 * room, 6 * room]
    rows, messages, pairs = (_array(_NUMBERS, length)() for length in lengths)
    counts, at = _Counts(), c_uint64()
    number = _lib.spop_read_frames(lent, len(lent), limit, rows, lengths[0], messages, lengths[1], pairs, lengths[2], counts, at)
    numbers = [table[:width * count] for table, width, count in zip((rows, messages, pairs), (7, 4, 6), counts)]
    return _frames_of(lent, *numbers), _stopped(lent[counts[3]:], number, at.value)


def _frames_of(lent: bytes, rows: List[int], messages: List[int], pairs: List[int]) -> List[Frame]:
    """The frames of the rows. A frame's first record is behind those of the frames before it, in each table."""
    frames, next_message, next_pair = [], 0, 0
    for k in range(0, len(rows), 7):
        start, used, type, stream_id, frame_id, _, count = rows[k:k + 7]
        message_count = count if type == FrameType.NOTIFY else 0
        records = [MessageRecord(*messages[4 * m:4 * m + 4]) for m in range(next_message, next_message + message_count)]
        pair_count = sum(record.pair_count for record in records) if type == FrameType.NOTIFY else count
        frames.append(_frame(lent[start:start + used], (type, Flag.FIN.value, stream_id, frame_id), used, records,
                             pairs[6 * next_pair:6 * (next_pair + pair_count)]))
        next_message += message_count
        next_pair += pair_count
    return frames


class Frames(Iterator[Frame]):
    """The frames of a stream, one after the other; `offset` is where the next one starts, counted from where the reading began.

    It takes no byte from the stream beyond the frame that it gives. It can go on after each exception: after Refused with the
    next frame, and else, such as after a timeout, with what is missing of this one.
    """

    def __init__(self, source: Any, limit: int = MAX_FRAME, *, max_messages: Optional[int] = None,
                 max_pairs: Optional[int] = None) -> None:
        if isinstance(source, _BUFFER):
            source = io.BytesIO(source)
        read = getattr(source, "recv", None) or getattr(source, "read", None)
        if read is None:
            raise TypeError(f"frames are read from bytes, or from what has recv or read, and not from {type(source).__name__}")
        self.offset = 0
        self._read: Callable[[int], Any] = read
        self._limit, self._max_messages, self._max_pairs = _whole("limit", limit, 32), max_messages, max_pairs
        self._held = bytearray()
        self._skip = 0

    def __next__(self) -> Frame:
        self._pass_over()
        need = 4
        while self._fill(need):
            try:
                frame = read_frame(self._held, self._limit, max_messages=self._max_messages, max_pairs=self._max_pairs)
            except Incomplete as cut:
                need = len(self._held) + cut.missing
            except Refused as refused:
                refused.frame = bytes(self._held[:refused.skip])
                self._drop(refused.skip or 0)
                raise
            else:
                self._drop(frame.used)
                return frame
        if self._held:
            raise Incomplete(need - len(self._held))
        raise StopIteration

    def _drop(self, count: int) -> None:
        self.offset += count
        self._skip = max(0, count - len(self._held))
        del self._held[:count]

    def _pass_over(self) -> None:
        """What the stream still has of a frame that was over the limit."""
        while self._skip:
            chunk = self._take(self._skip)
            if not chunk:
                raise Incomplete(self._skip)
            self._held += chunk[self._skip:]
            self._skip = max(0, self._skip - len(chunk))

    def _fill(self, need: int) -> bool:
        """Whether so many bytes are there. A read may give fewer than it is asked for; without any, the stream has ended."""
        while len(self._held) < need:
            chunk = self._take(need - len(self._held))
            if not chunk:
                return False
            self._held += chunk
        return True

    def _take(self, count: int) -> Buffer:
        """Asks for a part at a time, so that memory grows with what was sent and not with what was announced."""
        chunk = self._read(min(count, 65536))
        if chunk is None:
            raise BlockingIOError("the stream has no bytes at the moment")
        if not isinstance(chunk, _BUFFER):
            raise TypeError(f"the stream gives {type(chunk).__name__} and not bytes: a file has to be opened in binary mode")
        return chunk


def frames(source: Any, limit: int = MAX_FRAME, *, max_messages: Optional[int] = None, max_pairs: Optional[int] = None) -> Frames:
    """The frames of bytes, or of a stream: a socket, or what else has recv(count) or read(count). It may give them in any parts.

    Raises Incomplete where the stream ends inside a frame, and Refused for one that is refused; the next one comes with next().
    """
    return Frames(source, limit, max_messages=max_messages, max_pairs=max_pairs)


def read_pair(data: Buffer) -> Tuple[Pair, int]:
    """The pair at the front of the bytes, and how many it takes."""
    lent, pair, at = _lent(data), _PairNumbers(), c_uint64()
    _tell(_lib.spop_read_pair(lent, len(lent), pair, at), at.value)
    return _pair(lent, *pair[:]), at.value


def typed_data(data: Buffer) -> Tuple[Value, int]:
    """The value at the front of the bytes with its kind and flags, and how many it takes."""
    lent, numbers, at = _lent(data), _ValueNumbers(), c_uint64()
    _tell(_lib.spop_typed_data(lent, len(lent), numbers, at), at.value)
    kind, a, b, flags = numbers[:]
    return Value(_READ[kind](lent, a, b), _KINDS[kind], flags), at.value


# Writing. Names and texts go into a pool of bytes, one behind the other, and the records point there.

class SetVar(NamedTuple):
    """Sets a variable."""

    scope: int
    name: Name
    value: Writable


class UnsetVar(NamedTuple):
    """Unsets a variable."""

    scope: int
    name: Name


class AgentFrame(NamedTuple):
    """A frame of an agent that was read. An ACK has actions, and an AGENT-HELLO and an AGENT-DISCONNECT have pairs."""

    type: FrameType
    flags: int
    stream_id: int
    frame_id: int
    used: int
    pairs: List[Pair]
    actions: List[Union[SetVar, UnsetVar]]


def read_agent_frame(data: Buffer, limit: int = MAX_FRAME, *, max_pairs: Optional[int] = None,
                     max_actions: Optional[int] = None) -> AgentFrame:
    """Reads the frame at the front of the bytes, one that an agent sends, as read_frame does those of HAProxy.

    The actions are those that write_ack takes: a set's value is a Value, with its kind and flags.
    """
    lent = _lent(data)
    limit = _whole("limit", limit, 32)
    most = _most(lent, limit)
    most_pairs = _most_pairs(lent, most) if max_pairs is None else min(most, _whole("max_pairs", max_pairs, 64))
    most_actions = most if max_actions is None else min(most, _whole("max_actions", max_actions, 64))
    head, pairs, rows, used = _tables(_lib.spop_read_agent_frame, lent, limit, (_NUMBERS, 6, most_pairs), (_NUMBERS, 8, most_actions))
    return AgentFrame(FrameType(head[0]), head[1], head[2], head[3], used,
                      [_pair(lent, *pairs[k:k + 6]) for k in range(0, 6 * head[4], 6)],
                      [_action_read(rows[k], rows[k + 1], _pair(lent, *rows[k + 2:k + 8])) for k in range(0, 8 * head[5], 8)])


def _action_read(verb: int, scope: int, pair: Pair) -> Union[SetVar, UnsetVar]:
    return SetVar(Scope(scope), pair.key, pair.typed) if verb == 1 else UnsetVar(Scope(scope), pair.key)


Argument = Union[Pair, Tuple[Name, Writable]]
Messages = Iterable[Union[Message, Tuple[Name, Iterable[Argument]]]]


def write_notify(stream_id: int, frame_id: int, messages: Messages, limit: int = AGREED_FRAME) -> bytes:
    """A NOTIFY frame. A message is a Message or (name, arguments), and an argument a Pair or (key, value)."""
    pool = bytearray()
    message_numbers: List[int] = []
    pair_numbers: List[int] = []
    for item in _items("messages", messages):
        name, arguments = _parts("a message is a Message or (name, arguments)", item, (2,))
        first = len(pair_numbers) // 6
        pair_numbers += _pairs(arguments, pool)
        message_numbers += [*_put(_name_bytes(name), pool), first, len(pair_numbers) // 6 - first]
    head = [True, False, *_ids(stream_id, frame_id)]
    return _write(_lib.spop_write_notify, head, limit, pool, (message_numbers, 4), (pair_numbers, 6))


def write_ack(stream_id: int, frame_id: int, actions: Iterable[Union[SetVar, UnsetVar]], limit: int = AGREED_FRAME) -> bytes:
    """An ACK frame with these actions."""
    pool = bytearray()
    numbers: List[int] = []
    for action in _items("actions", actions):
        numbers += _action(action, pool)
    head = [True, False, *_ids(stream_id, frame_id)]
    return _write(_lib.spop_write_actions, head, limit, pool, (numbers, 8))


def write_hello(max_frame_size: int = AGREED_FRAME, *, version: str = "2.0", capabilities: str = "",
                limit: int = AGREED_FRAME) -> bytes:
    """An AGENT-HELLO frame with its three items: version, max-frame-size and capabilities."""
    items: List[Argument] = [("version", version), ("max-frame-size", U32(max_frame_size)), ("capabilities", capabilities)]
    return write_kv(FrameType.AGENT_HELLO, items, limit=limit)


def write_disconnect(status_code: int = 0, message: str = "normal", limit: int = AGREED_FRAME) -> bytes:
    """An AGENT-DISCONNECT frame with its two items: status-code and message."""
    return write_kv(FrameType.AGENT_DISCONNECT, [("status-code", U32(status_code)), ("message", message)], limit=limit)


def write_kv(type: int, pairs: Iterable[Argument], stream_id: int = 0, frame_id: int = 0, *, fin: bool = True,
             abort: bool = False, limit: int = AGREED_FRAME) -> bytes:
    """A frame of a KV list: a HELLO or a DISCONNECT. Those of an agent have FIN alone and both ids 0."""
    pool = bytearray()
    numbers = _pairs(pairs, pool)
    head = [_whole("type", type, 64), bool(fin), bool(abort), *_ids(stream_id, frame_id)]
    return _write(_lib.spop_write_kv, head, limit, pool, (numbers, 6))


def _write(call: Any, head: List[Any], limit: int, pool: bytearray, *tables: Tuple[List[int], int]) -> bytes:
    """Calls a writer with tables of numbers, each with its record's width, and room for the longest frame that they can make."""
    limit = _whole("limit", limit, 32)
    words: List[Any] = []
    for numbers, width in tables:
        words += [_array(_NUMBERS, len(numbers))(*numbers), len(numbers), len(numbers) // width]
    # The head has at most 29 bytes. Beside its texts a record has, for each of its numbers, less than ten.
    longest = min(4 + limit, 29 + len(pool) + sum(10 * len(numbers) for numbers, _ in tables))
    out, at = _array(_BYTES, longest)(), c_uint64()
    _tell(call(*head, limit, bytes(pool), len(pool), *words, out, longest, at), at.value)
    return string_at(out, at.value)


def _ids(stream_id: int, frame_id: int) -> Tuple[int, int]:
    return _whole("stream_id", stream_id, 64), _whole("frame_id", frame_id, 64)


def _pairs(pairs: Iterable[Argument], pool: bytearray) -> List[int]:
    numbers: List[int] = []
    for item in _items("arguments", pairs):
        key, value, *rest = _parts("an argument is a Pair or (key, value)", item, (2, 4))
        numbers += _put(_name_bytes(key), pool)
        numbers += _value_numbers(Value(value, *rest) if rest else value, pool)
    return numbers


def _action(action: Union[SetVar, UnsetVar], pool: bytearray) -> List[int]:
    if isinstance(action, SetVar):
        front, value = Action.SET_VAR, _value_numbers(action.value, pool)
    elif isinstance(action, UnsetVar):
        front, value = Action.UNSET_VAR, [0, 0, 0, 0]
    else:
        raise TypeError(f"an action is a SetVar or an UnsetVar, and not {type(action).__name__}")
    return [front, _whole("scope", action.scope, 64), *_put(_name_bytes(action.name), pool), *value]


def _items(name: str, items: Iterable[Any]) -> Iterable[Any]:
    """A mapping and a set have lost what repeats, and a set its order too: neither is a list, and no view of them or walk over them is."""
    if isinstance(items, (Mapping, MappingView, Set, str, *_WALKS, *_BUFFER)):
        raise TypeError(f"{name} are a list, in its own order, in which one may repeat, and not {type(items).__name__}")
    return items


def _parts(what: str, item: Any, lengths: Tuple[int, ...]) -> Sequence[Any]:
    if not isinstance(item, (tuple, list)):
        raise TypeError(f"{what}, and not {type(item).__name__}")
    if len(item) not in lengths:
        raise TypeError(f"{what}, and not of {len(item)} parts")
    return item


def _put(part: bytes, pool: bytearray) -> Tuple[int, int]:
    """Where it starts, and its length."""
    start = len(pool)
    pool += part
    return start, len(part)


def _name_bytes(name: Name) -> bytes:
    if not isinstance(name, (str, *_BUFFER)):
        raise TypeError(f"a name or a key is str or bytes, and not {type(name).__name__}")
    return _bytes_of(name)


def _bytes_of(text: Name) -> bytes:
    """A str may have surrogates, which are left to the library to refuse."""
    if isinstance(text, Text):
        return text.raw
    return text.encode("utf-8", "surrogatepass") if isinstance(text, str) else _lent(text)


def _value_numbers(value: Writable, pool: bytearray) -> List[int]:
    """A value's kind, a, b and flags."""
    if not isinstance(value, Value):
        value = Value(value, kind_of(value))
    kind = Kind(value.kind)
    return [kind, *_a_and_b(value.value, kind, pool), _whole("flags", value.flags, 64)]


def _a_and_b(value: Plain, kind: Kind, pool: bytearray) -> Tuple[int, int]:
    width = _INTEGERS.get(kind)
    if width and isinstance(value, int) and not isinstance(value, bool):
        _check_range(width, value)
        return value % 2**64, 0
    if kind == Kind.STRING and isinstance(value, (str, *_BUFFER)):
        return _put(_bytes_of(value), pool)
    if width or kind != kind_of(value):
        raise TypeError(f"a value of kind {kind.name} cannot be {type(value).__name__}")
    if isinstance(value, (IPv4Address, IPv6Address)):
        return _put(_address_bytes(value), pool)
    return _put(_lent(value), pool) if isinstance(value, _BUFFER) else (int(value is True), 0)


def _address_bytes(address: Union[IPv4Address, IPv6Address]) -> bytes:
    """An interface and an address with a scope have more than that, which would be lost."""
    bare = IPv4Address(address.packed) if isinstance(address, IPv4Address) else IPv6Address(address.packed)
    if bare != address:
        raise ValueError(f"{address} is more than an address")
    return address.packed


# A value on its own

def check_value(value: Writable) -> Refusal:
    """What a value is refused with before it is written in a frame: NOT_WRITABLE or NOT_TEXT; else DONE."""
    numbers, pool = _on_its_own(value)
    return Refusal(_lib.spop_check_value(numbers, pool, len(pool)))


def value_len(value: Writable) -> int:
    """How many bytes its written form has; 0 where it has none."""
    numbers, pool = _on_its_own(value)
    return int(_lib.spop_value_len(numbers, pool, len(pool)))


def write_value(value: Writable) -> bytes:
    """The written form of a value. Whether a string is UTF-8 is check_value's to say."""
    numbers, pool = _on_its_own(value)
    longest = 11 + len(pool)
    out, at = _array(_BYTES, longest)(), c_uint64()
    _tell(_lib.spop_write_value(numbers, pool, len(pool), out, longest, at), at.value)
    return string_at(out, at.value)


def _on_its_own(value: Writable) -> Tuple[Any, bytes]:
    pool = bytearray()
    return _ValueNumbers(*_value_numbers(value, pool)), bytes(pool)


# Numbers, texts and negotiation

def varint_len(number: int) -> int:
    """How many bytes the written form of a number has."""
    return int(_lib.spop_varint_len(_whole("the number", number, 64)))


def encode_varint(number: int) -> bytes:
    """The written form of a number."""
    out, at = (_BYTES[0])(), c_uint64()
    _tell(_lib.spop_encode_varint(_whole("the number", number, 64), out, 10, at), at.value)
    return string_at(out, at.value)


def decode_varint(data: Buffer) -> Tuple[int, int]:
    """The number at the front of the bytes, and how many it takes."""
    lent, value, at = _lent(data), c_uint64(), c_uint64()
    _tell(_lib.spop_decode_varint(lent, len(lent), value, at), at.value)
    return value.value, at.value


def is_utf8(data: Buffer) -> bool:
    """Whether the bytes are well-formed UTF-8."""
    lent = _lent(data)
    return bool(_lib.spop_is_utf8(lent, len(lent)))


def same_text(a: Buffer, b: Buffer) -> bool:
    """Whether the two have the same lossy text. Keys of a KV list are compared so."""
    lent_a, lent_b = _lent(a), _lent(b)
    return bool(_lib.spop_same_text(lent_a, len(lent_a), lent_b, len(lent_b)))


def same_text_plain(a: Buffer, b: Buffer) -> bool:
    """The same the plain way: both lossy texts are written out, and their bytes compared."""
    lent_a, lent_b = _lent(a), _lent(b)
    longest_a, longest_b = 3 * len(lent_a), 3 * len(lent_b)
    text_a, text_b, same, at = _array(_BYTES, longest_a)(), _array(_BYTES, longest_b)(), c_bool(), c_uint64()
    number = _lib.spop_same_text_plain(lent_a, len(lent_a), lent_b, len(lent_b), text_a, longest_a, text_b, longest_b, same, at)
    _tell(number, at.value)
    return same.value


def lossy_text(data: Buffer) -> str:
    """The text of the bytes, with U+FFFD for each maximal subpart of an ill-formed sequence."""
    lent = _lent(data)
    longest = 3 * len(lent)
    out, at = _array(_BYTES, longest)(), c_uint64()
    _tell(_lib.spop_lossy_text(lent, len(lent), out, longest, at), at.value)
    return str(string_at(out, at.value), "utf-8")


def negotiate_max_frame_size(theirs: int, ours: int) -> int:
    """The frame size that both sides can keep to: the smaller one. One under 256 is refused with 13."""
    at = c_uint64()
    _tell(_lib.spop_negotiate_max_frame_size(_whole("theirs", theirs, 32), _whole("ours", ours, 32), at), at.value)
    return at.value


def negotiate_version(versions: Iterable[Tuple[int, int, int, int]]) -> Optional[Tuple[int, int, int]]:
    """(2, 0, 0) where one of the announced versions has the major number 2 and does not rank below 2.0.0; else None.

    Each is (major, minor, patch, pre_release), the last 0 exactly where the version has no pre-release part. With one, its minor or
    patch is to be above 0: 2.0.0-rc.1 does not count, and 2.1.0-rc.1 does.
    """
    numbers: List[int] = []
    for announced in _items("versions", versions):
        parts = _parts("a version is (major, minor, patch, pre_release)", announced, (4,))
        numbers += [_whole("a version's number", part, 64) for part in parts]
    version = (c_uint64 * 3)()
    if not _lib.spop_negotiate_version(_array(_NUMBERS, len(numbers))(*numbers), len(numbers), version):
        return None
    return version[0], version[1], version[2]
