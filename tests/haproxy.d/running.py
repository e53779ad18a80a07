"""What is started for a test, and ended again: the agent, HAProxy, and a relay between the two that keeps what they say."""
import ctypes
import os
import re
import shutil
import signal
import socket
import subprocess
import threading
import time
from pathlib import Path

import wire

TOP = Path(__file__).resolve().parents[2]
STARTED = []


class Failed(Exception):
    pass


def free_port():
    with socket.socket() as s:
        s.bind(("127.0.0.1", 0))
        return s.getsockname()[1]


def until(what, holds, seconds=10):
    """Waits until something holds."""
    end = time.monotonic() + seconds
    while time.monotonic() < end:
        if holds():
            return
        time.sleep(0.02)
    raise Failed(f"{what}: not within {seconds} seconds")


def _die_with_parent():
    ctypes.CDLL(None).prctl(1, signal.SIGKILL)      # PR_SET_PDEATHSIG: what is started ends also where this is killed


class Process:
    """A process with a log of what it says."""

    def __init__(self, log, words, **env):
        self.log = Path(log)
        self.started_at = self.log.stat().st_size if self.log.exists() else 0
        with open(log, "ab") as out:
            self.process = subprocess.Popen([str(word) for word in words], stdin=subprocess.DEVNULL, stdout=out, stderr=out,
                                            env={**os.environ, **env}, preexec_fn=_die_with_parent)
        STARTED.append(self)

    def said(self, start=None):
        with open(self.log, "rb") as f:
            f.seek(self.started_at if start is None else start)
            return f.read().decode(errors="replace")

    def mark(self):
        return self.log.stat().st_size

    def end(self, number=signal.SIGTERM, seconds=10):
        """Sends a signal and gives the status."""
        if self.process.poll() is None:
            self.process.send_signal(number)
        try:
            return self.process.wait(seconds)
        except subprocess.TimeoutExpired:
            self.process.kill()
            self.process.wait()
            raise Failed(f"{self.log.name}: it does not end by signal {number}") from None

    def memory(self):
        status = Path(f"/proc/{self.process.pid}/status").read_text()
        return {name: int(re.search(rf"^{name}:\s+(\d+) kB", status, re.M)[1]) for name in ("VmSize", "VmData", "RssAnon")}

    def work(self):
        """The seconds that it has worked."""
        words = Path(f"/proc/{self.process.pid}/stat").read_text().rpartition(")")[2].split()
        return (int(words[11]) + int(words[12])) / os.sysconf("SC_CLK_TCK")


class Agent(Process):
    def __init__(self, scratch, port=None, files=None):
        self.port, self.times = port or free_port(), scratch / "times"
        self.times.unlink(missing_ok=True)
        words = [scratch / "agent", self.port]
        if files:
            words = ["prlimit", f"--nofile={files}", *words]
        super().__init__(scratch / "agent.log", words, TIMES=str(self.times))
        until("the agent", lambda: "listening on port" in self.said() or self.process.poll() is not None)
        if self.process.poll() is not None:
            raise Failed(f"the agent does not start: {self.said()}")

    def stats(self):
        """Ends it, and gives frames, median and 99th percentile in nanoseconds, as times.c has them."""
        status = self.end()
        text = self.times.read_text() if self.times.exists() else ""
        line = re.fullmatch(r"(\d+) frames, median (\d+) ns, 99th percentile (\d+) ns\n", text)
        if status != 0 or not line:
            raise Failed(f"the agent ended with status {status} and times {text!r}: {self.said()}")
        return tuple(int(n) for n in line.groups())


def configured(scratch, name, pattern, other, times):
    """A folder with the configuration of examples/haproxy, of which something in spoe.cfg, so many times, is changed."""
    folder = scratch / name
    folder.mkdir(exist_ok=True)
    shutil.copy(TOP / "examples/haproxy/haproxy.cfg", folder)
    text, count = re.subn(pattern, other, (TOP / "examples/haproxy/spoe.cfg").read_text(), flags=re.M)
    if count != times:
        raise Failed(f"spoe.cfg has {count} times what {times} times should be there: {pattern}")
    (folder / "spoe.cfg").write_text(text)
    return folder


def announcing(scratch, size):
    """HAProxy has another max-frame-size."""
    return configured(scratch, "announcing", r"^( +max-frame-size) \d+$", rf"\1 {size}", 1)


def repeating(scratch):
    """The arguments of an upload are slot, delay, slot, delay and data."""
    return configured(scratch, "repeating", r"\b(slot|delay)_[ab]=", r"\1=", 4)


class HAProxy(Process):
    def __init__(self, scratch, agent_port, port=None, folder=TOP / "examples/haproxy"):
        self.port, self.socket = port or free_port(), scratch / "haproxy.sock"
        super().__init__(scratch / "haproxy.log", ["haproxy", "-C", folder, "-f", "haproxy.cfg"],
                         HTTP_PORT=str(self.port), AGENT_PORT=str(agent_port), STATS_SOCKET=str(self.socket))
        until("HAProxy", lambda: self.is_up() or self.process.poll() is not None)
        if self.process.poll() is not None:
            raise Failed(f"HAProxy does not start: {self.said()}")

    def ask(self, command):
        with socket.socket(socket.AF_UNIX) as s:
            s.settimeout(10)
            s.connect(str(self.socket))
            s.sendall(command.encode() + b"\n")
            return b"".join(iter(lambda: s.recv(65536), b"")).decode()

    def is_up(self):
        try:
            return self.counters()["agents", "agent"]["status"] == "UP"
        except (OSError, KeyError):
            return False

    def counters(self):
        head, *lines = [line.split(",") for line in self.ask("show stat").lstrip("# ").splitlines() if line]
        return {(line[0], line[1]): dict(zip(head, line)) for line in lines}

    def events(self):
        """The engine's own counts: of errors, and of events, as its last line has them."""
        lines = re.findall(r"SPOE: \[agent\] .* (\d+)/(\d+)$", self.ask("show events spoe"), re.M)
        return max(((int(errors), int(events)) for errors, events in lines), key=lambda pair: pair[1])


class Relay:
    """Stands between HAProxy and an agent, and keeps the frames of both. It may change those of HAProxy on their way."""

    def __init__(self, agent_port, change=lambda frame: frame):
        self.agent_port, self.change, self.lock = agent_port, change, threading.Lock()
        self.from_haproxy, self.from_agent = [], []
        self.listener = socket.create_server(("127.0.0.1", 0))
        self.port = self.listener.getsockname()[1]
        threading.Thread(target=self._accept, daemon=True).start()

    def _accept(self):
        while True:
            try:
                ours, _ = self.listener.accept()
            except OSError:
                return
            try:
                theirs = socket.create_connection(("127.0.0.1", self.agent_port))
            except OSError:
                ours.close()
                continue
            for each in (ours, theirs):
                each.setsockopt(socket.IPPROTO_TCP, socket.TCP_NODELAY, 1)
            threading.Thread(target=self._pass_on, args=(ours, theirs, self.from_haproxy, self.change), daemon=True).start()
            threading.Thread(target=self._pass_on, args=(theirs, ours, self.from_agent, lambda frame: frame), daemon=True).start()

    def _pass_on(self, source, target, kept, change):
        rest = b""
        try:
            while got := source.recv(65536):
                frames, rest = wire.split(rest + got)
                with self.lock:
                    kept.extend(frames)
                target.sendall(b"".join(map(change, frames)))
            target.shutdown(socket.SHUT_WR)
        except OSError:
            pass

    def close(self):
        self.listener.close()


class Stand:
    """Serves HAProxy in the place of an agent: it greets by itself, and each NOTIFY is handed to a program, which answers it."""

    def __init__(self, words, env):
        self.words, self.env, self.asked, self.said = words, {**os.environ, **env}, [], []
        self.listener = socket.create_server(("127.0.0.1", 0))
        self.port = self.listener.getsockname()[1]
        threading.Thread(target=self._accept, daemon=True).start()

    def _accept(self):
        while True:
            try:
                connection, _ = self.listener.accept()
            except OSError:
                return
            threading.Thread(target=self._serve, args=(connection,), daemon=True).start()

    def _serve(self, connection):
        rest = b""
        with connection:
            while got := connection.recv(65536):
                frames, rest = wire.split(rest + got)
                for raw in frames:
                    frame = wire.read(raw)
                    if frame.kind == wire.GOODBYE:
                        return
                    connection.sendall(wire.agent_hello(16384) if frame.kind == wire.HELLO else self.answer(raw))
                    if (b"healthcheck", wire.BOOL, True) in frame.pairs:
                        return

    def answer(self, raw):
        """The program's answer, which is bytes or their hex."""
        done = subprocess.run(self.words, input=raw, capture_output=True, env=self.env)
        self.asked.append(raw)
        self.said.append(done.stderr.decode(errors="replace"))
        try:
            return bytes.fromhex(done.stdout.decode())
        except ValueError:
            return done.stdout

    def close(self):
        self.listener.close()


class Raw:
    """A connection to the agent that sends any bytes."""

    def __init__(self, port):
        self.socket = socket.create_connection(("127.0.0.1", port), timeout=10)
        self.socket.setsockopt(socket.IPPROTO_TCP, socket.TCP_NODELAY, 1)
        self.rest = b""

    def send(self, raw):
        self.socket.sendall(raw)

    def one(self):
        """The next frame, or nothing at the end."""
        while True:
            frames, _ = wire.split(self.rest)
            if frames:
                self.rest = self.rest[len(frames[0]):]
                return frames[0]
            got = self.socket.recv(65536)
            if not got:
                return None
            self.rest += got

    def greet(self, size=16384):
        self.send(wire.hello(size))
        return self.one()

    def one_or_none(self):
        """The same, where the connection may be turned away."""
        try:
            return self.one()
        except ConnectionResetError:
            return None

    def greet_or_none(self):
        try:
            return self.greet()
        except (ConnectionResetError, BrokenPipeError):
            return None

    def no_more(self):
        self.socket.shutdown(socket.SHUT_WR)

    def reason(self):
        """Reads to the end, where an AGENT-DISCONNECT has to be the last frame: its status and message."""
        last = None
        while (got := self.one()) is not None:
            last = got
        self.socket.close()
        if last is None or self.rest:
            raise Failed("the connection ends without a reason")
        read = wire.read(last)
        if read.kind != wire.AGENT_GOODBYE or [key for key, _, _ in read.pairs] != [b"status-code", b"message"]:
            raise Failed(f"the last frame is {read}")
        return read.pairs[0][2], read.pairs[1][2].decode()


def end_all():
    for each in reversed(STARTED):
        if each.process.poll() is None:
            each.process.kill()
            each.process.wait()
