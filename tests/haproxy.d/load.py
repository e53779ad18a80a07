"""Uploads over kept-alive connections, many at a time, each answer looked at."""
import select
import socket
import time

PATIENCE = 5.0
DELAYS = [(-1) ** slot * (slot * 40_009 + slot ** 7) for slot in range(28)]


def delay(slot, turn):
    """Another one for each slot and turn."""
    return DELAYS[slot] + turn


def request(slots, delays):
    words = b"slot_b=%d&delay_b=%d&slot_a=%d&delay_a=%d" % (slots[0], delays[0], slots[1], delays[1])
    return b"POST /upload?%s HTTP/1.1\r\nhost: a\r\ncontent-length: 0\r\n\r\n" % words


def answer(slots, delays):
    return (b"HTTP/1.1 200 OK\r\ncontent-length: 0\r\nx-slot0: %d\r\nx-delay0: %d\r\nx-slot1: %d\r\nx-delay1: %d\r\n\r\n"
            % (slots[0], delays[0], slots[1], delays[1]))


class Connection:
    def __init__(self, port):
        self.socket = socket.create_connection(("127.0.0.1", port))
        self.socket.setsockopt(socket.IPPROTO_TCP, socket.TCP_NODELAY, 1)
        self.expected, self.got, self.due = b"", b"", 0.0

    def start(self, turn, due):
        slots = turn % 28, (turn + 1 + turn // 28 % 27) % 28
        delays = delay(slots[0], turn), delay(slots[1], -turn)
        self.expected, self.got, self.due = answer(slots, delays), b"", due
        self.socket.sendall(request(slots, delays))


class Result:
    def __init__(self):
        self.right, self.wrong, self.times, self.seconds = 0, [], [], 0.0

    def time_of(self, percent):
        """In milliseconds."""
        ordered = sorted(self.times)
        return 1000 * ordered[min(len(ordered) - 1, len(ordered) * percent // 100)]


def run(port, count, connections, rate=None, keep_times=True, once=(0, None)):
    """Sends so many uploads. With a rate each is due at its time, and its time is counted from there, whether or not a connection
    was free; without one each connection sends the next as soon as it has an answer. Once so many are answered, once[1] is
    called."""
    result, turn = Result(), 0
    free = [Connection(port) for _ in range(connections)]
    by_socket = {each.socket: each for each in free}
    start = time.monotonic()
    while result.right + len(result.wrong) < count and by_socket:
        now = time.monotonic()
        while free and turn < count and (rate is None or start + turn / rate <= now):
            due = now if rate is None else start + turn / rate
            free.pop(0).start(turn, due)           # each has its turn: one that is never used counts as an error
            turn += 1
        pause = PATIENCE
        if rate is not None and free and turn < count:
            pause = max(0.0, start + turn / rate - time.monotonic())
        ready, _, _ = select.select(list(by_socket), [], [], pause)
        if not ready and pause == PATIENCE:
            result.wrong.append(f"no answer within {PATIENCE} seconds")
            break
        now = time.monotonic()
        for each in map(by_socket.get, ready):
            got = each.socket.recv(65536)
            each.got += got
            if each.got == each.expected:
                result.right += 1
                if keep_times:
                    result.times.append(now - each.due)
                free.append(each)
                if result.right == once[0]:
                    once[1]()
            elif not got or not each.expected.startswith(each.got):
                result.wrong.append(f"{each.got!r} for {each.expected!r}")
                each.socket.close()
                del by_socket[each.socket]
    result.seconds = time.monotonic() - start
    for each in by_socket.values():
        each.socket.close()
    return result
