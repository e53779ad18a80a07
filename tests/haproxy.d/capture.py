"""Keeps what a HAProxy sends: capture.py AGENT, with a built examples/agent.c.

Writes examples/haproxy/frames.bin, its frames as they came, and frames.txt, the lines that spoplist has to write for them. They
are of a health check, an engine's HELLO, uploads, each kind of value, and the DISCONNECT with which HAProxy ends."""
import shutil
import signal
import sys
import tempfile
from pathlib import Path

import listing
import load
from checks import KINDS, Web, raw_headers, right, same
from running import TOP, Agent, HAProxy, Relay, end_all

UPLOADS = 28


def capture(scratch):
    agent = Agent(scratch)
    relay = Relay(agent.port)
    haproxy = HAProxy(scratch, relay.port)
    web = Web(haproxy.port)
    for first in range(UPLOADS):
        slots = first, (first * 5 + 3) % 28
        delays = load.delay(slots[0], first), load.delay(slots[1], -first)
        same(f"slots {slots}", web.upload(slots, delays, b"\x00\xff data"[:first]), right(slots, delays))
    for headers, body, _, _ in KINDS:
        same(f"the status of {headers}", web.ask("/kinds", raw_headers(headers), body)[0], 200)
    haproxy.end(signal.SIGUSR1)
    agent.end()
    return b"".join(relay.from_haproxy)


def main(agent):
    scratch, folder = Path(tempfile.mkdtemp()), TOP / "examples/haproxy"
    try:
        shutil.copy(agent, scratch / "agent")
        frames = capture(scratch)
    finally:
        end_all()
        shutil.rmtree(scratch, ignore_errors=True)
    (folder / "frames.bin").write_bytes(frames)
    (folder / "frames.txt").write_text(listing.text(frames))
    print(f"{len(frames)} bytes")


if __name__ == "__main__":
    if len(sys.argv) != 2:
        sys.exit("usage: capture.py AGENT")
    main(sys.argv[1])
