"""Frames written and read in plain Python, from docs/RULES.md, so that nothing here is the library's own reading."""
from typing import NamedTuple

HELLO, GOODBYE, NOTIFY, AGENT_HELLO, AGENT_GOODBYE, ACK = 1, 2, 3, 101, 102, 103
NULL, BOOL, I32, U32, I64, U64, IPV4, IPV6, STRING, BINARY = range(10)
NAMES = "null bool i32 u32 i64 u64 IPv4 IPv6 string binary".split()


def number(n):
    if n < 240:
        return bytes([n])
    out, n = [240 + n % 16], (n - 240) // 16
    while n >= 128:
        out, n = out + [128 + n % 128], (n - 128) // 128
    return bytes(out + [n])


def string(raw):
    return number(len(raw)) + raw


def typed(kind, value):
    if kind == NULL:
        return b"\x00"
    if kind == BOOL:
        return b"\x11" if value else b"\x01"
    if kind in (I32, U32, I64, U64):
        return bytes([kind]) + number(value % 2**64)
    return bytes([kind]) + (value if kind in (IPV4, IPV6) else string(value))


def pair(key, kind, value):
    return string(key) + typed(kind, value)


def message(name, *pairs):
    return string(name) + bytes([len(pairs)]) + b"".join(pair(*each) for each in pairs)


def set_var(name, kind, value):
    return b"\x01\x03\x02" + pair(name, kind, value)


def frame(kind, payload, stream=0, ident=0, flags=1):
    body = bytes([kind]) + flags.to_bytes(4, "big") + number(stream) + number(ident) + payload
    return len(body).to_bytes(4, "big") + body


def hello(size=16384, versions=b"2.0", **more):
    items = {b"supported-versions": (STRING, versions), b"max-frame-size": (U32, size), b"capabilities": (STRING, b"pipelining")}
    items.update({key.replace("_", "-").encode(): value for key, value in more.items()})
    return frame(HELLO, b"".join(pair(key, *value) for key, value in items.items() if value is not None))


def agent_hello(size):
    items = (b"version", STRING, b"2.0"), (b"max-frame-size", U32, size), (b"capabilities", STRING, b"pipelining")
    return frame(AGENT_HELLO, b"".join(pair(*item) for item in items))


class Bytes:
    """Bytes that are read from the front."""

    def __init__(self, raw):
        self.raw, self.at = raw, 0

    def left(self):
        return len(self.raw) - self.at

    def take(self, count):
        if count > self.left():
            raise ValueError("the bytes end too soon")
        self.at += count
        return self.raw[self.at - count:self.at]

    def number(self):
        total = byte = self.take(1)[0]
        shift = 4
        while byte >= 240 if shift == 4 else byte >= 128:
            byte = self.take(1)[0]
            total += byte << shift
            shift += 7
        return total

    def string(self):
        return self.take(self.number())

    def typed(self):
        byte = self.take(1)[0]
        kind = byte & 15
        if kind == NULL:
            return kind, None
        if kind == BOOL:
            return kind, bool(byte & 16)
        if kind in (IPV4, IPV6):
            return kind, self.take(4 if kind == IPV4 else 16)
        if kind in (STRING, BINARY):
            return kind, self.string()
        if kind > BINARY:
            raise ValueError(f"there is no data type {kind}")
        bits = self.number()
        if kind in (I32, U32):
            bits %= 2**32
        half = 2**31 if kind == I32 else 2**63
        return kind, bits - 2 * half if kind in (I32, I64) and bits >= half else bits

    def pair(self):
        return (self.string(), *self.typed())


class Frame(NamedTuple):
    kind: int
    stream: int
    ident: int
    messages: list      # (name, pairs)
    pairs: list         # (key, kind, value): of a KV list, or what an ACK sets
    raw: bytes


def read(raw):
    """One whole frame."""
    body = Bytes(raw)
    if int.from_bytes(body.take(4), "big") != body.left():
        raise ValueError("the length is another")
    kind, flags = body.take(1)[0], int.from_bytes(body.take(4), "big")
    if flags != 1:
        raise ValueError(f"the flags are {flags}")
    stream, ident, messages, pairs = body.number(), body.number(), [], []
    while body.left():
        if kind == NOTIFY:
            name = body.string()
            messages.append((name, [body.pair() for _ in range(body.take(1)[0])]))
        elif kind == ACK:
            if body.take(3) != b"\x01\x03\x02":
                raise ValueError("an action is none that sets a variable of the transaction")
            pairs.append(body.pair())
        else:
            pairs.append(body.pair())
    return Frame(kind, stream, ident, messages, pairs, raw)


def split(raw):
    """The whole frames at the front of some bytes, and what is left behind them."""
    frames = []
    while len(raw) >= 4 and len(raw) >= 4 + int.from_bytes(raw[:4], "big"):
        end = 4 + int.from_bytes(raw[:4], "big")
        frames.append(raw[:end])
        raw = raw[end:]
    return frames, raw
