"""What tests/haproxy shows, in its six points: checks.py FOLDER LIBRARY [long]. The folder has the agent, and is removed at the
end; LIBRARY is a folder with libspop.a and libspop.so."""
import http.client
import os
import random
import re
import shutil
import signal
import subprocess
import sys
import threading
import time
from pathlib import Path

import listing
import load
import wire
from running import TOP, Agent, Failed, HAProxy, Raw, Relay, Stand, announcing, end_all, repeating, until

COUNTS = {"pass": 0, "fail": 0}
SLOTS = range(28)
SIZE = 16384                    # the agreed size of a frame
RESERVED = 32                   # what HAProxy keeps free of it in front of the messages


def say(verdict, line):
    COUNTS[verdict] += 1
    print(verdict, line, flush=True)


def same(what, got, expected):
    if got != expected:
        raise Failed(f"{what}: {got!r}, and not {expected!r}")


class Web:
    """A client over one kept-alive connection."""

    def __init__(self, port):
        self.connection = http.client.HTTPConnection("127.0.0.1", port, timeout=10)

    def ask(self, path, headers=None, body=b""):
        self.connection.request("POST", path, body=body, headers=headers or {})
        response = self.connection.getresponse()
        response.read()
        return response.status, {key: value for key, value in response.getheaders() if key.startswith("x-")}

    def upload(self, slots, delays, data=b""):
        words = f"slot_b={slots[0]}&delay_b={delays[0]}&slot_a={slots[1]}&delay_a={delays[1]}"
        return self.ask(f"/upload?{words}", body=data)


def right(slots, delays):
    return 200, {"x-slot0": str(slots[0]), "x-delay0": str(delays[0]), "x-slot1": str(slots[1]), "x-delay1": str(delays[1])}


def next_is_right(port):
    """An upload on a new connection."""
    same("the next upload", Web(port).upload((27, 3), (-730, 1250)), right((27, 3), (-730, 1250)))


def upload_message(slots, delays, data=b""):
    return wire.message(b"upload", (b"slot_b", wire.I64, slots[0]), (b"delay_b", wire.I64, delays[0]),
                        (b"slot_a", wire.I64, slots[1]), (b"delay_a", wire.I64, delays[1]), (b"data", wire.BINARY, data))


def upload_ack(stream, ident, slots, delays):
    return wire.frame(wire.ACK, wire.set_var(b"slot0", wire.I64, slots[0]) + wire.set_var(b"delay0", wire.I64, delays[0])
                      + wire.set_var(b"slot1", wire.I64, slots[1]) + wire.set_var(b"delay1", wire.I64, delays[1]), stream, ident)


def no_errors(haproxy, events, answers):
    """HAProxy's own counters."""
    same("the engine's errors and events", haproxy.events(), (0, events))
    counters = haproxy.counters()
    front, server = counters["uploads", "FRONTEND"], counters["agents", "agent"]
    same("answers with 200", front["hrsp_2xx"], str(answers))
    wrong = {f"{name} of {key}": row[key] for name, row, keys in (
        ("the frontend", front, ("dreq", "ereq", "hrsp_4xx", "hrsp_5xx", "hrsp_other", "eint", "wrew")),
        ("the agent", server, ("econ", "eresp", "wretr", "wredis", "chkfail", "cli_abrt", "srv_abrt", "eint"))) for key in keys
        if row[key] not in ("", "0")}
    same("HAProxy's counts of errors", wrong, {})
    found = re.search(r"Total events captured .* : (\d+)", haproxy.ask("show errors"))
    same("show errors", found and found[1], "0")


# ---- 1. slots and delays

def each_pair_of_slots(scratch):
    agent = Agent(scratch)
    relay = Relay(agent.port)
    haproxy = HAProxy(scratch, relay.port)
    web, turn = Web(haproxy.port), 0
    for first in SLOTS:
        for second in SLOTS:
            if first == second:
                continue
            turn += 1
            slots, delays = (first, second), (load.delay(first, turn), load.delay(second, -turn))
            same(f"slots {slots}", web.upload(slots, delays), right(slots, delays))
    keys = [[key for key, _, _ in pairs] for frame in map(wire.read, relay.from_haproxy) for _, pairs in frame.messages]
    same("the arguments' names", keys, [[b"slot_b", b"delay_b", b"slot_a", b"delay_a", b"data"]] * turn)
    if sorted(keys[0][:4]) == keys[0][:4] or sorted(keys[0][0:3:2]) == keys[0][0:3:2]:
        raise Failed("the arguments' names are in order")
    no_errors(haproxy, turn, turn)
    relay.close()
    same("the agent's frames", agent.stats()[0], turn)
    return f"{turn} uploads, each delay beside its own slot, with names that sorting would exchange"


def answering():
    """The examples that read frames from standard input and write ACKs. The agent, which does both on a port, has its own point."""
    sources = [path for path in sorted((TOP / "examples").iterdir()) if path.suffix in (".c", ".py", ".rs")]
    return [path for path in sources
            if re.search(r"\bstdin\b", path.read_text()) and re.search(r"_ack\(|SPOP_ACK|\bAck::", path.read_text())]


def started_by(source, scratch, library):
    """The words that run an example, compiled where need be, and what they need in the environment."""
    program = scratch / f"{source.stem}_{source.suffix[1:]}"
    if source.suffix == ".py":
        return [sys.executable, source], {"PYTHONPATH": str(TOP / "bindings/python"), "PYTHONDONTWRITEBYTECODE": "1",
                                          "SPOP_LIBRARY": str(library / "libspop.so")}
    words = ["cc", "-std=c99", "-O2", f"-I{TOP}/include", source, library / "libspop.a", "-o", program]
    if source.suffix == ".rs":
        words = ["cargo", "build", "--quiet", "--offline", "--manifest-path", TOP / "bindings/rust/Cargo.toml", "--target-dir",
                 scratch / "cargo", "--example", source.stem]
        program = scratch / "cargo/debug/examples" / source.stem
    if not shutil.which(words[0]):
        raise Failed(f"the command {words[0]} is not on the PATH")
    done = subprocess.run(words, capture_output=True, text=True, env={**os.environ, "SPOP_LIB_DIR": str(library)})
    if done.returncode:
        raise Failed(f"{source.name} does not compile: {done.stderr[:500]}")
    return [program], {}


def each_answering_example(scratch, library):
    """HAProxy sends slot, delay, slot, delay, so what an example sets is to have names of its own for each."""
    turns = [((3, 17), (1250, -730)), ((17, 3), (-730, 1250)), ((0, 27), (0, -9_000_000_000)), ((27, 0), (2**63 - 1, -2**63))]
    names = []
    for source in answering():
        stand = Stand(*started_by(source, scratch, library))
        haproxy = HAProxy(scratch, stand.port, folder=repeating(scratch))
        web = Web(haproxy.port)
        for slots, delays in turns:
            same(f"{source.name}, slots {slots}", web.upload(slots, delays), right(slots, delays))
        keys = [[key for key, _, _ in pairs] for frame in map(wire.read, stand.asked) for _, pairs in frame.messages]
        same(f"the arguments' names for {source.name}", keys, [[b"slot", b"delay", b"slot", b"delay", b"data"]] * len(turns))
        no_errors(haproxy, len(turns), len(turns))
        haproxy.end()
        stand.close()
        hello = subprocess.run(stand.words, input=wire.hello(), capture_output=True, env=stand.env)
        same(f"what {source.name} answers to a HELLO", hello.stdout, b"")
        names.append(source.name)
    if not names:
        raise Failed("there is no such example")
    return f"{', '.join(names)}: each delay beside its own slot, where both names repeat, and no answer to a HELLO"


# ---- 2. kinds of values

def address(text):
    return bytes(int(part) for part in text.split("."))


KINDS = [
    # headers and body of a request; what HAProxy sends; what it shows of what came back
    ({"x-bool": "1", "x-int": "-9223372036854775808", "x-ipv4": "192.0.2.7", "x-ipv6": "2001:db8::7", "x-string": "Grüße"},
     bytes(range(256)),
     [(wire.NULL, None), (wire.BOOL, True), (wire.I64, -2**63), (wire.IPV4, address("192.0.2.7")),
      (wire.IPV6, b"\x20\x01\x0d\xb8" + bytes(11) + b"\x07"), (wire.STRING, "Grüße".encode()),
      (wire.BINARY, bytes(range(256)))],
     {"x-bool": "1", "x-int": "-9223372036854775808", "x-ipv4": "192.0.2.7", "x-ipv6": "2001:db8::7"}),
    ({"x-null": "x", "x-bool": "0", "x-int": "9223372036854775807", "x-ipv4": "255.255.255.255", "x-ipv6": "::",
      "x-string": b"\xffA\xe9"},
     b"\x00",
     [(wire.STRING, b"x"), (wire.BOOL, False), (wire.I64, 2**63 - 1), (wire.IPV4, b"\xff" * 4), (wire.IPV6, bytes(16)),
      (wire.STRING, b"\xffA\xe9"), (wire.BINARY, b"\x00")],
     {"x-null": "x", "x-bool": "0", "x-int": "9223372036854775807", "x-ipv4": "255.255.255.255", "x-ipv6": "::"}),
    ({"x-int": "0", "x-string": ""}, b"",
     [(wire.NULL, None), (wire.NULL, None), (wire.I64, 0), (wire.NULL, None), (wire.NULL, None), (wire.STRING, b""),
      (wire.BINARY, b"")],
     {"x-int": "0"}),
]
KEYS = [b"null", b"bool", b"int", b"ipv4", b"ipv6", b"string", b"binary", b"method"]


def returned(kind, value):
    """The kind with which a value comes back: a string that is not UTF-8 is binary then."""
    if kind == wire.STRING:
        try:
            value.decode()
        except UnicodeDecodeError:
            return wire.BINARY
    return kind


def raw_headers(headers):
    return {key: value if isinstance(value, bytes) else value.encode() for key, value in headers.items()}


def each_kind(scratch):
    agent = Agent(scratch)
    relay = Relay(agent.port)
    haproxy = HAProxy(scratch, relay.port)
    web, sent = Web(haproxy.port), []
    for headers, body, values, shown in KINDS:
        values = values + [(wire.STRING, b"POST")]
        shown = {**shown, "x-method": "POST", "x-string": values[5][1].hex().upper(), "x-binary": values[6][1].hex().upper()}
        same(f"what comes back of {headers}", web.ask("/kinds", raw_headers(headers), body), (200, shown))
        sent.append([(key, *value) for key, value in zip(KEYS, values)])
    there = [pairs for frame in map(wire.read, relay.from_haproxy) for _, pairs in frame.messages]
    same("what HAProxy sends", there, sent)
    back = [[(key, returned(kind, value), value) for key, kind, value in pairs] for pairs in sent]
    same("what the agent sends", [frame.pairs for frame in map(wire.read, relay.from_agent) if frame.kind == wire.ACK], back)
    no_errors(haproxy, len(KINDS), len(KINDS))
    relay.close()
    agent.end()
    met = sorted({kind for pairs in sent for _, kind, _ in pairs})
    same("the kinds", met, [wire.NULL, wire.BOOL, wire.I64, wire.IPV4, wire.IPV6, wire.STRING, wire.BINARY])
    names = ", ".join(wire.NAMES[kind] for kind in met)
    return f"HAProxy sends {names} and has them back, UTF-8 or not; i32, u32 and u64 it does not send"


# Values of the kinds that HAProxy does not send, and how it shows them: its integers are signed and have 64 bits.
OTHERS = [(wire.I32, -730, "-730"), (wire.I32, -2**31, "-2147483648"), (wire.U32, 2**32 - 1, "4294967295"),
          (wire.U64, 2**63 - 1, "9223372036854775807"), (wire.U64, 2**64 - 1, "-1")]


def other_kinds(scratch):
    """The integer of a message is made another kind on its way to the agent, which sends that back to HAProxy."""
    agent, turns = Agent(scratch), iter(OTHERS)

    def change(raw):
        frame = wire.read(raw)
        if frame.kind != wire.NOTIFY:
            return raw
        kind, value, _ = next(turns)
        pairs = [(key, kind, value) if key == b"int" else (key, its_kind, its) for key, its_kind, its in frame.messages[0][1]]
        return wire.frame(wire.NOTIFY, wire.message(b"kinds", *pairs), frame.stream, frame.ident)

    relay = Relay(agent.port, change)
    haproxy = HAProxy(scratch, relay.port)
    web = Web(haproxy.port)
    for kind, value, shown in OTHERS:
        status, headers = web.ask("/kinds", {"x-int": "5"})
        same(f"{wire.NAMES[kind]} {value}", (status, headers.get("x-int")), (200, shown))
    ints = [pair[1:] for frame in map(wire.read, relay.from_agent) for pair in frame.pairs if pair[0] == b"int"]
    same("what the agent sends", ints, [(kind, value) for kind, value, _ in OTHERS])
    no_errors(haproxy, len(OTHERS), len(OTHERS))
    relay.close()
    agent.end()
    return "i32, u32 and u64, put into HAProxy's frames on their way, come back to it"


def each_kind_by_hand(scratch):
    """The agent answers a message of all ten kinds with the same values, also those that HAProxy does not send."""
    agent = Agent(scratch)
    values = [(b"n", wire.NULL, None), (b"f", wire.BOOL, False), (b"t", wire.BOOL, True), (b"i", wire.I32, -730),
              (b"u", wire.U32, 2**32 - 1), (b"l", wire.I64, -9_000_000_000), (b"m", wire.U64, 2**64 - 1),
              (b"4", wire.IPV4, b"\x7f\0\0\1"),
              (b"6", wire.IPV6, bytes(15) + b"\1"), (b"s", wire.STRING, "µ".encode()), (b"b", wire.BINARY, b"\xff\0")]
    raw = Raw(agent.port)
    same("the AGENT-HELLO", raw.greet(), wire.agent_hello(SIZE))
    raw.send(wire.frame(wire.NOTIFY, wire.message(b"any", *values), 300, 7))
    same("the ACK", raw.one(), wire.frame(wire.ACK, b"".join(wire.set_var(*value) for value in values), 300, 7))
    agent.end()
    return "all ten kinds sent to the agent by hand come back as they are"


# ---- the frames that are kept

def kept_frames(_):
    """Frames that a HAProxy sent: each type that it has, each kind of value, and the lines of the listing."""
    folder = TOP / "examples/haproxy"
    raw = (folder / "frames.bin").read_bytes()
    same("frames.txt", (folder / "frames.txt").read_text(), listing.text(raw))
    frames = [wire.read(frame) for frame in wire.split(raw)[0]]
    same("their types", sorted({frame.kind for frame in frames}), [wire.HELLO, wire.GOODBYE, wire.NOTIFY])
    names = [(name, [key for key, _, _ in pairs]) for frame in frames for name, pairs in frame.messages]
    same("their messages", sorted({name for name, _ in names}), [b"kinds", b"upload"])
    same("the arguments of kinds", [keys for name, keys in names if name == b"kinds"], [KEYS] * len(KINDS))
    return f"{len(frames)} frames of {len(raw)} bytes have the lines of frames.txt"


# ---- frames in pieces

def any_cut(scratch):
    """A HELLO and three NOTIFY frames, cut in two anywhere, byte by byte, and all at once, have the same answers."""
    agent = Agent(scratch)
    slots, delays = (5, 0), (2**62, -1)
    stream = wire.hello() + b"".join(wire.frame(wire.NOTIFY, upload_message(slots, delays), 240 + n, n) for n in range(3))
    answers = wire.agent_hello(SIZE) + b"".join(upload_ack(240 + n, n, slots, delays) for n in range(3))
    cuts = [[stream[:cut], stream[cut:]] for cut in range(1, len(stream))]
    for pieces in [[stream], [stream[i:i + 1] for i in range(len(stream))]] + cuts:
        raw = Raw(agent.port)
        for piece in pieces:
            raw.send(piece)
            time.sleep(0.002 if len(pieces) == 2 else 0)
        raw.no_more()
        got = b"".join(iter(raw.one, None))
        raw.socket.close()
        same(f"the answers to {len(pieces)} pieces, the first of {len(pieces[0])} bytes", got, answers)
    same("frames", agent.stats()[0], 3 * (len(cuts) + 2))
    return f"four frames in one read, byte by byte, and cut in two at each of {len(cuts)} places"


# ---- connections

def greetings(scratch):
    """HELLO and DISCONNECT by hand, where the agent has nothing against them."""
    agent = Agent(scratch)
    announced = (b"2.0", b"1.0, 2.0", b" 2.0 ,1.5", b"2.5", b"2.0.0+rc-1", b"2.0.0-rc.1, 2.0.1-rc.1")
    for versions in announced:
        raw = Raw(agent.port)
        raw.send(wire.hello(versions=versions, healthcheck=(wire.BOOL, False), engine_id=(wire.STRING, b"x")))
        same(f"the answer to versions {versions}", raw.one(), wire.agent_hello(SIZE))
        raw.send(wire.frame(wire.GOODBYE, wire.pair(b"status-code", wire.U32, 2) + wire.pair(b"message", wire.STRING, b"\n")))
        same("the answer to a DISCONNECT", raw.reason(), (0, "normal"))
    said = re.findall(r"^agent: connection \d+: (.*)$", agent.said(), re.M)
    same("the log", said, ["HAProxy ends it with status 2", "ended with status 0: normal"] * len(announced))
    raw = Raw(agent.port)
    raw.send(wire.hello(healthcheck=(wire.BOOL, True)))
    same("the answer to a health check, and the end", (raw.one(), raw.one()), (wire.agent_hello(SIZE), None))
    agent.end()
    return "versions as they may be written, a DISCONNECT with a status, and a health check, which is answered and closed"


def slow_reader(scratch):
    """Whoever does not take answers is not read from, and has them all in the end."""
    agent, count = Agent(scratch), 250_000       # more than the kernel's buffers hold
    frames = b"".join(wire.frame(wire.NOTIFY, upload_message((1, 2), (n, -n)), n, 1) for n in range(count))
    expected = b"".join(upload_ack(n, 1, (1, 2), (n, -n)) for n in range(count))
    raw = Raw(agent.port)
    raw.greet()
    raw.socket.settimeout(60)                    # for all frames together
    sender = threading.Thread(target=raw.send, args=(frames,), daemon=True)
    sender.start()
    sender.join(1)
    if not sender.is_alive():
        raise Failed("all frames are taken, though no answer is")
    before, worked = agent.memory(), agent.work()
    time.sleep(0.5)
    if agent.work() > worked + 0.1:
        raise Failed("the agent works while there is nothing to do")
    got = bytearray()
    while len(got) < len(expected) and (piece := raw.socket.recv(1 << 20)):
        got += piece
    same("the answers are right", bytes(got) == expected, True)
    same("the agent's memory", agent.memory(), before)
    same("the agent's frames", agent.stats()[0], count)
    return f"{count} frames from one who reads no answer at first: it is not read from meanwhile, and has all answers in order"


def many_connections(scratch):
    agent = Agent(scratch)
    raws = [Raw(agent.port) for _ in range(500)]
    for raw in raws:
        raw.send(wire.hello())
    for number, raw in enumerate(raws):
        same("an AGENT-HELLO", raw.one(), wire.agent_hello(SIZE))
        raw.send(wire.frame(wire.NOTIFY, upload_message((3, 4), (number, 0)), number, 1))
    for number, raw in enumerate(raws):
        same("an ACK", raw.one(), upload_ack(number, 1, (3, 4), (number, 0)))
        raw.socket.close()
    agent.end()
    few = Agent(scratch, files=16)
    raws = [Raw(few.port) for _ in range(30)]
    for raw in raws:
        raw.send(wire.hello())
    until("a connection is turned away", lambda: "a connection is turned away" in few.said())
    answers = [raw.one_or_none() for raw in raws]
    served = [raw for raw, answer in zip(raws, answers) if answer == wire.agent_hello(SIZE)]
    same("answers and ends", set(answers), {wire.agent_hello(SIZE), None})
    served[0].send(wire.frame(wire.NOTIFY, upload_message((3, 4), (5, 6)), 1, 1))
    same("an ACK", served[0].one(), upload_ack(1, 1, (3, 4), (5, 6)))
    for raw in served:
        raw.socket.close()
    until("another connection", lambda: Raw(few.port).greet_or_none() == wire.agent_hello(SIZE))
    few.end()
    return f"500 at once; of 30 with files for {len(served)} the others are turned away, and later ones are served again"


def words(scratch):
    """What the agent says to wrong words, and to a port that is taken."""
    agent = Agent(scratch)
    for given, status in ((["x"], 2), (["0"], 2), (["65536"], 2), (["-1"], 2), (["12345x"], 2), ([agent.port, 256], 2),
                          (["1", "256", "2"], 2), (["--status"], 2), ([""], 2), ([agent.port], 1)):
        done = subprocess.run([scratch / "agent", *map(str, given)], capture_output=True, text=True, timeout=10)
        said = "usage: agent " if status == 2 else "agent: it does not listen: Address already in use"
        same(f"status and line for {given}", (done.returncode, done.stderr.startswith(said), done.stdout), (status, True, ""))
    agent.end()
    return "wrong words have the usage and status 2, a port that is taken status 1"


# ---- 3. the start of a run

def start_of_a_run(scratch):
    agent = Agent(scratch)
    haproxy = HAProxy(scratch, agent.port)
    result = load.run(haproxy.port, 9000, 16, rate=900)
    same("wrong answers", result.wrong[:3], [])
    same("right answers", result.right, 9000)
    if not 9.9 < result.seconds < 10.5:
        raise Failed(f"9000 uploads took {result.seconds:.2f} seconds, and not ten")
    no_errors(haproxy, 9000, 9000)
    same("the agent's lines but the first", agent.said().splitlines()[1:], [])      # health checks are none to be said
    haproxy.end()
    frames, median, most = agent.stats()
    same("the agent's frames", frames, 9000)
    return (f"9000 uploads in {result.seconds:.2f} s, all right; a frame in the agent: median {median / 1000:.2f} us, 99th "
            f"percentile {most / 1000:.2f} us; a request: median {result.time_of(50):.2f} ms, 99th percentile "
            f"{result.time_of(99):.2f} ms")


# ---- 4. many frames

PER_CONNECTION = 5 * (SIZE + 4) // 1024 + 1         # in kB: an input and an output of four frames


def most_connections(haproxy):
    """To the agent, at once. HAProxy opens another one where it wants, and only then the agent takes memory."""
    return int(haproxy.counters()["agents", "agent"]["smax"])


def many_frames(scratch, count):
    agent = Agent(scratch)
    haproxy = HAProxy(scratch, agent.port)
    warm, seen = 100_000, []        # a health check comes meanwhile, which is a connection beside the others

    def look():
        seen.append((agent.memory(), most_connections(haproxy)))

    result = load.run(haproxy.port, warm + count, 8, keep_times=False, once=(warm, look))
    same("wrong answers", result.wrong[:3], [])
    same("right answers", result.right, warm + count)
    seen.append((agent.memory(), most_connections(haproxy)))
    no_errors(haproxy, warm + count, warm + count)
    same("HTTP connections", haproxy.counters()["uploads", "FRONTEND"]["conn_tot"], "8")
    haproxy.end()
    same("the agent's frames", agent.stats()[0], warm + count)
    (before, connections), (after, later) = seen
    if later == connections:
        same("the agent's memory in kB", after, before)
    elif any(after[key] > before[key] + 2 * (later - connections) * PER_CONNECTION for key in after):
        raise Failed(f"the agent's memory in kB is {after} with {later} connections, and was {before} with {connections}")
    return (f"{warm + count} frames on kept-alive connections in {result.seconds:.1f} s, none lost; the agent's memory "
            f"is {before['RssAnon']} kB after {warm} and {after['RssAnon']} kB at the end, connections: {connections} and {later}")


# ---- 5. sizes, and ends

def largest_data(size, slots, delays):
    """How many bytes of data HAProxy can send under a size: it keeps RESERVED bytes for the head."""
    count = size - RESERVED - len(upload_message(slots, delays))
    while len(upload_message(slots, delays, bytes(count))) > size - RESERVED:
        count -= 1
    return count


def sizes(frames):
    """The sizes in HELLO frames, other than those of health checks."""
    hellos = [{key: value for key, _, value in frame.pairs} for frame in map(wire.read, frames)]
    return {hello[b"max-frame-size"] for hello in hellos if b"max-frame-size" in hello and not hello.get(b"healthcheck")}


def size_through_haproxy(scratch, size):
    """HAProxy announces a size, and the smaller of this and the agent's own holds."""
    agent = Agent(scratch)
    relay = Relay(agent.port)
    haproxy = HAProxy(scratch, relay.port, folder=announcing(scratch, size))
    slots, delays = (3, 17), (1250, -730)
    count = largest_data(min(size, SIZE), slots, delays)
    web = Web(haproxy.port)
    same("the first upload", web.upload(slots, delays), right(slots, delays))       # by now the size is agreed
    same(f"{count} bytes of data", web.upload(slots, delays, b"d" * count), right(slots, delays))
    same("one more", web.upload(slots, delays, b"d" * (count + 1)), (502, {"x-error": "3"}))
    same("the next upload", web.upload(slots, delays), right(slots, delays))
    # A health check announces the most that HAProxy can, and so the agent's own size is agreed on.
    same("the sizes that the engine announces", sizes(relay.from_haproxy), {size})
    same("the sizes that are agreed on", sizes(relay.from_agent) | {SIZE}, {min(size, SIZE), SIZE})
    longest = max(len(raw) - 4 for raw in relay.from_haproxy)
    relay.close()
    agent.end()
    return (f"{size} announced and {min(size, SIZE)} agreed: HAProxy sends a frame of {longest} bytes, has error 3 (too big) for one "
            "byte more, and goes on")


TEXTS = {
    1: "the frame is not whole yet", 2: "the frame's length is over the limit", 3: "the bytes end too soon",
    4: "the frame's type or flags are unknown", 5: "the frame has ABORT set", 6: "the frame is one that the other side sends",
    7: "a number is over 64 bits", 8: "a data type is none of 0 to 9", 9: "a key is met twice",
    10: "a table has no room for a record", 12: "the frame to be written is over the limit", 13: "a frame size is under 256",
    15: "a text is not UTF-8", 19: "a number's tenth byte is above 15",
}


def refused(agent, what, send, status, reason, greet=SIZE):
    """Sends bytes on a connection of their own. It has to end with this status and reason, and the log has to have the same. A
    reason is a refusal's number and place, with which its text goes, or the agent's own text."""
    mark, raw = agent.mark(), Raw(agent.port)
    if greet:
        same(f"{what}: the AGENT-HELLO", wire.read(raw.greet(greet)).kind, wire.AGENT_HELLO)
    send(raw) if callable(send) else raw.send(send)
    got = raw.reason()
    text = reason if isinstance(reason, str) else f"{reason[0]} at {reason[1]}: {TEXTS[reason[0]]}"
    same(what, got, (status, text))
    same(f"{what}: the log", re.findall(r"^agent: connection \d+: (.*)$", agent.said(mark), re.M),
         [f"ended with status {status}: {text}"])


OVERSIZE = (2, 4)


def sizes_by_hand(scratch):
    slots, delays = (27, 0), (-1, 2**40)

    def exactly(size):
        fixed = len(wire.frame(wire.NOTIFY, upload_message(slots, delays, bytes(size - 200)), 1, 1)) - 4 - (size - 200)
        return wire.frame(wire.NOTIFY, upload_message(slots, delays, bytes(size - fixed)), 1, 1)

    agent, count = Agent(scratch), 0
    for theirs, ours in ((SIZE, SIZE), (65532, SIZE), (4096, 4096), (1000, 1000), (300, 300)):
        raw = Raw(agent.port)
        same("the AGENT-HELLO", raw.greet(theirs), wire.agent_hello(ours))
        frame = exactly(ours)
        same("the frame's length", frame[:4], ours.to_bytes(4, "big"))
        raw.send(frame)
        same(f"the ACK of a frame of {ours} bytes", raw.one(), upload_ack(1, 1, slots, delays))
        refused(agent, f"a frame of {ours + 1} bytes", exactly(ours + 1), 3, OVERSIZE, greet=theirs)
        raw.send(frame)
        same("the connection beside it", raw.one(), upload_ack(1, 1, slots, delays))
        raw.socket.close()
        count += 1
    # Two arguments take three bytes more each in an ACK, and a message without a name two less.
    for more, over in ((0, True), (-4, False)):
        payload = wire.message(b"", (b"k", wire.BINARY, bytes(1000 - 16 + more)), (b"", wire.NULL, None))
        frame = wire.frame(wire.NOTIFY, payload, 1, 1)
        same("the frame's length", frame[:4], (1000 + more).to_bytes(4, "big"))
        if over:
            refused(agent, "a frame with an ACK over the size", frame, 3, (12, 0), greet=1000)
    raw = Raw(agent.port)
    raw.greet(1000)
    raw.send(frame)
    same("the length of an ACK of the size", raw.one()[:4], (1000).to_bytes(4, "big"))
    raw.socket.close()
    refused(agent, "a HELLO of size 255", wire.hello(255), 9, (13, 0), greet=None)
    agent.end()
    return f"{count} sizes: a frame of the size is answered, one byte more has status 3: 2 at 4, and an ACK over it 3: 12 at 0"


def haproxy_ends(scratch):
    """HAProxy ends its connections in order, or is killed, and starts again."""
    agent = Agent(scratch)
    haproxy = HAProxy(scratch, agent.port)
    next_is_right(haproxy.port)
    mark = agent.mark()
    same("the status of HAProxy", haproxy.end(signal.SIGUSR1), 0)
    until("HAProxy's DISCONNECT", lambda: "HAProxy ends it with status 0" in agent.said(mark))
    haproxy = HAProxy(scratch, agent.port, haproxy.port)
    next_is_right(haproxy.port)
    same("the status of HAProxy", haproxy.end(signal.SIGKILL), -9)
    haproxy = HAProxy(scratch, agent.port, haproxy.port)
    next_is_right(haproxy.port)
    no_errors(haproxy, 1, 1)
    same("the agent's frames", agent.stats()[0], 3)
    return "HAProxy stopped and started again, and killed and started again: the next upload is right"


def agent_ends(scratch):
    """The agent is killed, or ended by SIGTERM, and starts again."""
    agent = Agent(scratch)
    haproxy = HAProxy(scratch, agent.port)
    next_is_right(haproxy.port)
    for number, status in ((signal.SIGKILL, -9), (signal.SIGTERM, 0)):
        same("the agent's status", agent.end(number), status)
        answer, headers = Web(haproxy.port).upload((1, 2), (3, 4))
        if answer != 502 or not re.fullmatch(r"[1-9]\d*", headers.get("x-error", "")):
            raise Failed(f"an upload without an agent is answered by {answer} {headers}")
        agent = Agent(scratch, agent.port)
        until("HAProxy's agent", haproxy.is_up)
        next_is_right(haproxy.port)
    raw = Raw(agent.port)
    raw.greet()
    same("the agent's status", agent.end(), 0)
    same("its DISCONNECT", raw.reason(), (0, "the agent ends"))
    return "the agent killed, ended by SIGTERM, and started again: uploads between have their error, and the next is right"


# ---- 6. garbage

def with_length(body):
    return len(body).to_bytes(4, "big") + body


def cut(raw, count):
    def send(connection):
        connection.send(raw[:count])
        connection.no_more()
    return send


INVALID = [
    # what is sent; whether a HELLO goes before it; the status and the reason, worked out from docs/RULES.md and SPOE.txt
    ("a length of 2^32-1", b"\xff" * 4, False, 3, OVERSIZE),
    ("a length of 2^32-1 and bytes behind it", b"\xff" * 4 + bytes(100_000), False, 3, OVERSIZE),
    ("a length of 2^32-1 after the HELLO", b"\xff" * 4, True, 3, OVERSIZE),
    ("HTTP", b"GET / HTTP/1.1\r\n\r\n", False, 3, OVERSIZE),
    ("a frame of no byte", bytes(4), True, 4, (3, 4)),
    ("type 0", wire.frame(0, b""), True, 4, (4, 4)),
    ("type 255", wire.frame(255, b""), True, 4, (4, 4)),
    ("an ACK", wire.frame(wire.ACK, b"", 1, 1), True, 4, (6, 4)),
    ("a NOTIFY without FIN", wire.frame(wire.NOTIFY, b"", 1, 1, flags=0), True, 10, (4, 4)),
    ("a NOTIFY with ABORT", wire.frame(wire.NOTIFY, b"", 1, 1, flags=3), True, 4, (5, 4)),
    ("reserved flags", wire.frame(wire.NOTIFY, b"", 1, 1, flags=5), True, 4, (4, 4)),
    ("three bytes of flags", with_length(b"\3\0\0\0"), True, 4, (3, 5)),
    ("no frame id", with_length(b"\3\0\0\0\1\1"), True, 4, (3, 10)),
    ("an id of eleven bytes", with_length(b"\3\0\0\0\1\xf0" + b"\x80" * 9 + b"\0"), True, 4, (19, 19)),
    ("an id over 2^64-1", with_length(b"\3\0\0\0\1\xf0" + b"\x80" * 8 + b"\x0f\1"), True, 4, (7, 19)),
    ("data type 10", wire.frame(wire.NOTIFY, b"\1m\1\1k\x0a", 1, 1), True, 4, (8, 17)),
    ("a string longer than its frame", wire.frame(wire.NOTIFY, b"\1m\1\1k\x08\x05abcd", 1, 1), True, 4, (3, 18)),
    ("65 arguments", wire.frame(wire.NOTIFY, b"\0\x41" + bytes(130), 1, 1), True, 13, (10, 143)),
    ("a key that is not UTF-8", wire.frame(wire.NOTIFY, b"\1m\1\1\xff\0", 1, 1), True, 4, (15, 0)),
    ("a key twice", wire.frame(wire.HELLO, b"\1a\0\1a\0"), False, 4, (9, 17)),
    ("a HELLO without versions", wire.hello(supported_versions=None), False, 5, "the HELLO has no supported-versions"),
    ("a HELLO without a size", wire.hello(max_frame_size=None), False, 6, "the HELLO has no max-frame-size"),
    ("a HELLO with a text for a size", wire.hello(max_frame_size=(wire.STRING, b"16384")), False, 6,
     "the HELLO has no max-frame-size"),
    ("a HELLO without capabilities", wire.hello(capabilities=None), False, 7, "the HELLO has no capabilities"),
    ("a HELLO of version 1.5", wire.hello(versions=b"1.5"), False, 8, "the HELLO has no version 2"),
    ("a HELLO of a release candidate", wire.hello(versions=b"2.0.0-rc.1"), False, 8, "the HELLO has no version 2"),
    ("a HELLO of no version", wire.hello(versions=b"two, 2"), False, 8, "the HELLO has no version 2"),
    ("a second HELLO", wire.hello(), True, 4, "a second HELLO"),
    ("a NOTIFY first", wire.frame(wire.NOTIFY, b"", 1, 1), False, 4, "a NOTIFY before the HELLO"),
    ("a length that is cut", cut(wire.hello(), 3), False, 1, (1, 1)),
    ("a frame that is cut", cut(wire.hello(), 20), False, 1, (1, len(wire.hello()) - 20)),
    ("a NOTIFY that is cut", cut(wire.frame(wire.NOTIFY, b"\1m\0", 1, 1), 10), True, 1, (1, 4)),
]


def garbage(scratch):
    agent = Agent(scratch)
    haproxy = HAProxy(scratch, agent.port)
    beside, uploads = Raw(agent.port), 0
    beside.greet()

    def others_go_on():
        nonlocal uploads
        uploads += 1
        beside.send(wire.frame(wire.NOTIFY, upload_message((1, 2), (uploads, -uploads)), 9, uploads))
        same("the connection beside it", beside.one(), upload_ack(9, uploads, (1, 2), (uploads, -uploads)))
        next_is_right(haproxy.port)

    for what, send, greeted, status, reason in INVALID:
        refused(agent, what, send, status, reason, greet=SIZE if greeted else None)
        others_go_on()
    drawn, rounds = random.Random(21), 200
    for turn in range(rounds):
        raw, mark = Raw(agent.port), agent.mark()
        noise = drawn.randbytes(drawn.randrange(1, 3000))
        if turn % 2:
            noise = with_length(noise)                          # else nearly all are refused for their length
        try:
            raw.send(noise)
            raw.no_more()
            status, text = raw.reason()
        except OSError as error:
            raise Failed(f"random bytes, round {turn}: {error}") from None
        said = re.findall(r"^agent: connection \d+: ended with status (\d+): (\d+ at \d+: .*)$", agent.said(mark), re.M)
        same(f"the log of random bytes, round {turn}", said, [(str(status), text)])
        if turn % 10 == 0:
            others_go_on()
    gone = Raw(agent.port)
    gone.send(wire.hello()[:30])
    gone.socket.close()
    others_go_on()
    no_errors(haproxy, uploads, uploads)
    same("the agent's frames", agent.stats()[0], 2 * uploads)
    return (f"{len(INVALID)} wrong inputs and {rounds} times random bytes, each ended with its reason; {2 * uploads} uploads "
            "beside them are right")


def main(folder, library, long):
    scratch = Path(folder)
    for number in (signal.SIGTERM, signal.SIGINT):
        signal.signal(number, lambda got, _: sys.exit(128 + got))       # by way of what ends all that was started
    points = [
        ("1. slots and delays", each_pair_of_slots),
        ("1. examples that answer", lambda s: each_answering_example(s, Path(library))), ("2. kinds of values", each_kind),
        ("2. other kinds", other_kinds), ("2. kinds by hand", each_kind_by_hand),
        ("2. frames that are kept", kept_frames), ("2. frames in pieces", any_cut),
        ("2. greetings", greetings), ("2. a slow reader", slow_reader), ("2. many connections", many_connections),
        ("2. words", words), ("3. the start of a run", start_of_a_run),
        ("4. many frames", lambda s: many_frames(s, 1_000_000 if long else 50_000)),
        ("5. the agreed size", lambda s: size_through_haproxy(s, SIZE)),
        ("5. a smaller size", lambda s: size_through_haproxy(s, 4096)),
        ("5. a larger size", lambda s: size_through_haproxy(s, 65532)), ("5. sizes by hand", sizes_by_hand),
        ("5. HAProxy ends", haproxy_ends), ("5. the agent ends", agent_ends), ("6. garbage", garbage),
    ]
    try:
        for name, check in points:
            try:
                say("pass", f"{name}: {check(scratch)}")
            except (Failed, OSError, ValueError, http.client.HTTPException) as error:
                say("fail", f"{name}: {error or type(error).__name__}")
            finally:
                end_all()
    finally:
        end_all()
        shutil.rmtree(scratch, ignore_errors=True)
    print(f"{COUNTS['pass']} passed, {COUNTS['fail']} failed")
    return COUNTS["fail"] > 0


if __name__ == "__main__":
    sys.exit(main(sys.argv[1], sys.argv[2], sys.argv[3:] == ["long"]))
