"""The bytes of SPOP by docs/RULES.md, in plain Python. It knows nothing of the library."""

MARK = b"\xef\xbf\xbd"

# The Unicode standard's table 3-7: the range of the first byte, and those of the bytes behind it.
ANY = (0x80, 0xBF)
ROWS = [
    ((0x00, 0x7F), []),
    ((0xC2, 0xDF), [ANY]),
    ((0xE0, 0xE0), [(0xA0, 0xBF), ANY]),
    ((0xE1, 0xEC), [ANY, ANY]),
    ((0xED, 0xED), [(0x80, 0x9F), ANY]),
    ((0xEE, 0xEF), [ANY, ANY]),
    ((0xF0, 0xF0), [(0x90, 0xBF), ANY, ANY]),
    ((0xF1, 0xF3), [ANY, ANY, ANY]),
    ((0xF4, 0xF4), [(0x80, 0x8F), ANY, ANY]),
]


def number(n):
    if n < 240:
        return bytes([n])
    written, rest = [240 + n % 16], (n - 240) // 16
    while rest >= 128:
        written.append(128 + rest % 128)
        rest = (rest - 128) // 128
    return bytes(written + [rest])


def string(text):
    return number(len(text)) + text


def value(kind, content, flags=0):
    """A bool's content is its flag; an integer's is the number; that of the others is bytes."""
    if kind == 1:
        return bytes([1 + 16 * content])
    front = bytes([kind + 16 * flags])
    if kind == 0:
        return front
    if kind <= 5:
        return front + number(content % 2**64)
    return front + (content if kind <= 7 else string(content))


def pair(key, kind, content, flags=0):
    return string(key) + value(kind, content, flags)


def message(name, *pairs):
    return string(name) + bytes([len(pairs)]) + b"".join(pairs)


def set_var(scope, name, kind, content, flags=0):
    return bytes([1, 3, scope]) + string(name) + value(kind, content, flags)


def unset_var(scope, name):
    return bytes([2, 2, scope]) + string(name)


def frame(type, stream_id, frame_id, *payload, flags=1):
    body = bytes([type]) + flags.to_bytes(4, "big") + number(stream_id) + number(frame_id) + b"".join(payload)
    return len(body).to_bytes(4, "big") + body


def steps(text):
    """Each character, or each maximal subpart of an ill-formed sequence, and whether it is a character."""
    while text:
        taken, whole = 1, False
        for (low, high), behind in ROWS:
            if low <= text[0] <= high:
                while taken <= len(behind) and taken < len(text) and behind[taken - 1][0] <= text[taken] <= behind[taken - 1][1]:
                    taken += 1
                whole = taken == 1 + len(behind)
        yield text[:taken], whole
        text = text[taken:]


def is_utf8(text):
    return all(whole for _, whole in steps(text))


def lossy(text):
    return b"".join(part if whole else MARK for part, whole in steps(text))
