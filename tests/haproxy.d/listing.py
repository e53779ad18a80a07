"""The lines that the program spoplist has to write for whole frames, from docs/RULES.md, "The listing"."""
import wire


def shown(raw):
    return raw.hex() or "-"


def value(kind, it):
    if kind == wire.NULL:
        return "-"
    return shown(it) if isinstance(it, bytes) else str(int(it))


def lines(raw):
    frames, rest = wire.split(raw)
    if rest:
        raise ValueError("the last frame is cut")
    for index, frame in enumerate(map(wire.read, frames)):
        yield f"frame {index} type {frame.kind} stream {frame.stream} id {frame.ident} bytes {len(frame.raw)}"
        place = 0
        for number, (name, pairs) in enumerate(frame.messages or [(None, frame.pairs)]):
            if name is not None:
                yield f"message {number} name {shown(name)} args {len(pairs)}"
            for key, kind, it in pairs:
                yield f"pair {place} key {shown(key)} kind {kind} value {value(kind, it)}"
                place += 1
    yield f"end {len(raw)} 0 0"


def text(raw):
    return "".join(line + "\n" for line in lines(raw))
