import io
import socket
import tempfile
import threading
import unittest

import spop

from . import plain
from .test_read import UPLOAD

HELLO = plain.frame(1, 0, 0, plain.pair(b"supported-versions", 8, b"2.0"))
EMPTY = plain.frame(3, 2, 1)
ALL = HELLO + UPLOAD + EMPTY
ENDS = [len(HELLO), len(HELLO + UPLOAD), len(ALL)]
UNKNOWN = plain.frame(7, 0, 0)
BAD_VALUE = plain.frame(1, 0, 0, b"\1A\x0a")


class Parts:
    """A stream that gives what it has in parts of some size; None or an exception in their list is given as it is, once."""

    def __init__(self, data, size=1, between=()):
        self.data, self.size, self.between, self.asked = data, size, list(between), []

    def take(self, count):
        self.asked.append(count)
        if self.between:
            other = self.between.pop(0)
            if isinstance(other, Exception):
                raise other
            return other
        part, self.data = self.data[:min(count, self.size)], self.data[min(count, self.size):]
        return part


class Receiving(Parts):
    recv = Parts.take


class Reading(Parts):
    read = Parts.take


class Streams(unittest.TestCase):
    def test_all_frames_in_order_whatever_the_parts(self):
        for source in (ALL, bytearray(ALL), memoryview(ALL), io.BytesIO(ALL), *[kind(ALL, size) for kind in (Receiving, Reading)
                                                                                for size in (1, 2, 3, 5, 59, 1000)]):
            reader = spop.frames(source)
            self.assertEqual([(1, 0, len(HELLO)), (3, 1, 59), (3, 2, len(EMPTY))],
                             [(frame.type, frame.stream_id, frame.used) for frame in reader])
            self.assertEqual(len(ALL), reader.offset)
            self.assertEqual([], list(reader))

    def test_cut_at_every_byte(self):
        for cut in range(len(ALL) + 1):
            for source in (ALL[:cut], Receiving(ALL[:cut], 7)):
                reader, seen = spop.frames(source), 0
                whole = sum(end <= cut for end in ENDS)
                start = ENDS[whole - 1] if whole else 0
                if cut == start:
                    self.assertEqual(whole, len(list(reader)))
                    continue
                with self.assertRaises(spop.Incomplete) as caught:
                    for _ in reader:
                        seen += 1
                self.assertEqual((whole, start), (seen, reader.offset))
                self.assertEqual(4 - (cut - start) if cut - start < 4 else ENDS[whole] - cut, caught.exception.missing)

    def test_nothing_is_a_stream_without_frames(self):
        for source in (b"", io.BytesIO(), Receiving(b"")):
            self.assertEqual([], list(spop.frames(source)))

    def test_no_byte_is_taken_beyond_a_frame(self):
        source = io.BytesIO(ALL + b"rest")
        for end, frame in zip(ENDS, spop.frames(source)):
            self.assertEqual(end, source.tell())
        self.assertEqual(b"rest", source.read())

    def test_a_stream_that_gives_more_than_it_is_asked_for(self):
        class Generous(Receiving):
            def recv(self, count):
                return self.take(count + 50)
        self.assertEqual([1, 3, 3], [frame.type for frame in spop.frames(Generous(ALL, 1000))])
        reader = spop.frames(Generous(plain.frame(3, 0, 0, bytes(200)) + ALL, 1000), 100)
        self.assert_refused(2, 4, reader)
        self.assertEqual([1, 3, 3], [frame.type for frame in reader])

    def test_going_on_behind_a_refused_frame(self):
        for bad, number, place in ((UNKNOWN, 4, 4), (BAD_VALUE, 8, 14), (plain.frame(101, 0, 0), 6, 4), (bytes(4), 3, 4)):
            for kind in (Receiving, Reading):
                reader = spop.frames(kind(UPLOAD + bad + bad + EMPTY, 3))
                self.assertEqual(1, next(reader).stream_id)
                for count in (1, 2):
                    refused = self.assert_refused(number, place, reader)
                    self.assertEqual((len(bad), bad, 59 + count * len(bad)), (refused.skip, refused.frame, reader.offset))
                self.assertEqual([2], [frame.stream_id for frame in reader])

    def test_going_on_behind_a_frame_that_is_over_the_limit(self):
        long = plain.frame(3, 0, 0, bytes(200000))
        for source in (Receiving(long + EMPTY, 1000), Reading(long + EMPTY, 10**6), long + EMPTY):
            reader = spop.frames(source, 100)
            refused = self.assert_refused(2, 4, reader)
            self.assertEqual((len(long), long[:4], len(long)), (refused.skip, refused.frame, reader.offset))
            self.assertEqual([2], [frame.stream_id for frame in reader])

    def test_a_frame_over_the_limit_that_is_cut(self):
        reader = spop.frames(plain.frame(3, 0, 0, bytes(200))[:-50], 100)
        self.assert_refused(2, 4, reader)
        for _ in range(2):
            with self.assertRaises(spop.Incomplete) as caught:
                next(reader)
            self.assertEqual(50, caught.exception.missing)

    def test_the_limit_and_the_rooms(self):
        self.assertEqual(1, len(list(spop.frames(UPLOAD, 55, max_messages=1, max_pairs=4))))
        self.assert_refused(2, 4, spop.frames(UPLOAD, 54))
        self.assert_refused(10, 59, spop.frames(UPLOAD, max_pairs=3))
        self.assert_refused(10, 19, spop.frames(UPLOAD, max_messages=0))
        with self.assertRaisesRegex(ValueError, "limit"):
            spop.frames(UPLOAD, 2**32)

    def test_a_stream_that_grows(self):
        source = Receiving(ALL[:70], 1000)
        reader = spop.frames(source)
        seen = [next(reader)]
        with self.assertRaises(spop.Incomplete):
            seen.append(next(reader))
        source.data = ALL[70:]
        self.assertEqual([1, 3, 3], [frame.type for frame in [*seen, *reader]])

    def test_nothing_is_lost_where_a_read_fails(self):
        source = Receiving(UPLOAD, 30, between=[UPLOAD[:2], UPLOAD[2:20], TimeoutError(), None])
        source.data = UPLOAD[20:]
        reader = spop.frames(source)
        with self.assertRaises(TimeoutError):
            next(reader)
        with self.assertRaises(BlockingIOError):
            next(reader)
        self.assertEqual(UPLOAD, spop.write_notify(1, 1, next(reader).messages))

    def test_no_more_is_asked_for_than_is_missing_and_in_parts(self):
        source = Receiving(UPLOAD, 1000)
        next(spop.frames(source))
        self.assertEqual([4, 55], source.asked)
        source = Receiving(b"\xff\xff\xff\xff" + bytes(100000), 10**6)
        with self.assertRaises(spop.Incomplete) as caught:
            next(spop.frames(source, 2**32 - 1))
        self.assertEqual((65536, 2**32 - 1 - 100000), (max(source.asked), caught.exception.missing))

    def test_what_is_no_stream(self):
        for source in ("uploads.bin", 5, None, [UPLOAD]):
            with self.assertRaisesRegex(TypeError, "frames are read from bytes"):
                spop.frames(source)
        with self.assertRaisesRegex(TypeError, "binary mode"):
            next(spop.frames(io.StringIO("text")))

    def test_a_file(self):
        with tempfile.TemporaryFile() as file:
            file.write(ALL)
            file.seek(0)
            self.assertEqual([1, 3, 3], [frame.type for frame in spop.frames(file)])

    def test_sockets_that_ask_and_answer(self):
        """Each side waits for the other's frame, so one that waited for more bytes than a frame has would hang here."""
        ours, theirs = socket.socketpair()
        for end in (ours, theirs):
            end.settimeout(20)

        def agent():
            with theirs, theirs.makefile("rb") as file:
                for frame in spop.frames(file):
                    theirs.sendall(spop.write_kv(2, [("again", spop.U64(frame.stream_id))]))

        thread = threading.Thread(target=agent)
        thread.start()
        with ours:
            answers = spop.frames(ours)
            for stream_id in (7, 2**64 - 1):
                for byte in spop.write_notify(stream_id, 1, []):
                    ours.sendall(bytes([byte]))
                self.assertEqual([("again", stream_id, spop.Kind.U64, 0)], next(answers).pairs)
        thread.join()

    def test_a_socket_that_times_out(self):
        ours, theirs = socket.socketpair()
        with ours, theirs:
            ours.settimeout(0.05)
            reader = spop.frames(ours)
            theirs.sendall(UPLOAD[:30])
            with self.assertRaises(socket.timeout):
                next(reader)
            theirs.sendall(UPLOAD[30:] + EMPTY)
            self.assertEqual([1, 2], [next(reader).stream_id, next(reader).stream_id])

    def assert_refused(self, number, place, reader):
        with self.assertRaises(spop.Refused) as caught:
            next(reader)
        self.assertEqual((number, place), (caught.exception.number, caught.exception.place))
        return caught.exception


if __name__ == "__main__":
    unittest.main()
