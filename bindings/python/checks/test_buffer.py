"""All frames of a buffer, against the same frames read one by one."""
import random
import unittest

import spop
from spop import Incomplete, Refusal, Refused

from . import plain
from .test_read import UPLOAD

HELLO = plain.frame(1, 0, 0, plain.pair(b"max-frame-size", 3, 16380), plain.pair(b"healthcheck", 1, 1))
EMPTY = plain.frame(3, 5, 6)
GOODBYE = plain.frame(2, 0, 0)
TWO = plain.frame(3, 7, 8, plain.message(b"m", plain.pair(b"a", 3, 1), plain.pair(b"b", 8, b"v\xfd")), plain.message(b""),
                  plain.message(b"n", plain.pair(b"a", 3, 2)))
SORTS = (HELLO, UPLOAD, EMPTY, GOODBYE, TWO)


def one_by_one(data, limit):
    """The frames, the rest, and what stopped it, as read_frame has them."""
    frames = []
    while True:
        try:
            frames.append(spop.read_frame(data, limit))
        except spop.Error as stopped:
            return frames, data, stopped
        data = data[frames[-1].used:]


class Buffers(unittest.TestCase):
    def assert_read(self, data, limit=spop.MAX_FRAME):
        frames, rest, stopped = one_by_one(data, limit)
        read = spop.read_frames(data, limit)
        self.assertEqual((frames, rest), (read.frames, read.rest))
        self.assertEqual((type(stopped), vars(stopped)), (type(read.stopped), vars(read.stopped)))
        return read

    def test_frames_of_all_sorts_keep_their_order_and_their_own_records(self):
        read = spop.read_frames(b"".join(SORTS) + HELLO[:7])
        self.assertEqual([spop.read_frame(frame) for frame in SORTS], read.frames)
        self.assertEqual(([0, 1, 0, 0, 3], [2, 4, 0, 0, 3]),
                         ([len(frame.messages) for frame in read.frames], [len(frame.pairs) for frame in read.frames]))
        self.assertEqual(["m", "", "n"], [message.name for message in read.frames[4].messages])
        self.assertEqual((HELLO[:7], Incomplete, len(HELLO) - 7), (read.rest, type(read.stopped), read.stopped.missing))

    def test_what_is_lent(self):
        for data in (2 * UPLOAD, bytearray(2 * UPLOAD), memoryview(2 * UPLOAD)):
            self.assertEqual(2, len(spop.read_frames(data).frames))
        with self.assertRaises(ValueError):
            spop.read_frames(UPLOAD, 2**32)

    def test_no_byte(self):
        read = self.assert_read(b"")
        self.assertEqual(([], b"", 4), (read.frames, read.rest, read.stopped.missing))

    def test_cut_anywhere(self):
        data = b"".join(SORTS)
        for end in range(len(data)):
            self.assert_read(data[:end])

    def test_a_refusal_has_its_place_in_its_own_frame(self):
        bad = plain.frame(1, 0, 0, plain.pair(b"k", 0, None), plain.pair(b"k", 0, None))
        read = self.assert_read(UPLOAD + bad + UPLOAD)
        self.assertEqual((1, bad + UPLOAD, Refusal.MET_TWICE, len(bad), len(bad)),
                         (len(read.frames), read.rest, read.stopped.number, read.stopped.place, read.stopped.skip))
        read = self.assert_read(EMPTY + UPLOAD, 54)
        self.assertEqual((1, Refusal.OVERSIZE, 4), (len(read.frames), read.stopped.number, read.stopped.place))

    def test_more_frames_than_one_call_has_room_for(self):
        for frame, count in ((EMPTY, 5000), (UPLOAD, 3000), (TWO, 3000)):
            read = spop.read_frames(count * frame + b"\0")
            self.assertEqual((count * [spop.read_frame(frame)], b"\0", 3), (read.frames, read.rest, read.stopped.missing))

    def test_a_frame_with_more_records_than_one_call_has_room_for(self):
        many = plain.frame(3, 1, 1, *(20 * [plain.message(b"", *255 * [plain.pair(b"", 0, None)])]))
        self.assertEqual([4, 5100, 4], [len(frame.pairs) for frame in self.assert_read(UPLOAD + many + UPLOAD).frames])

    def test_a_list_of_too_many_keys_is_refused_as_on_its_own(self):
        for count in (4160, 4161):
            keys = plain.frame(1, 0, 0, *(plain.pair(b"%d" % index, 0, None) for index in range(count)))
            read = self.assert_read(UPLOAD + keys + UPLOAD)
            self.assertEqual(3 if count == 4160 else 1, len(read.frames))
            self.assertIsInstance(read.stopped, Incomplete if count == 4160 else Refused)

    def test_random_buffers(self):
        draw = random.Random(1)
        for _ in range(300):
            data = bytearray(b"".join(draw.choice(SORTS) for _ in range(draw.randrange(12))))
            if data and draw.randrange(2):
                data[draw.randrange(len(data))] ^= 1 << draw.randrange(8)
            self.assert_read(bytes(data), draw.choice((40, 55, 16384)))


if __name__ == "__main__":
    unittest.main()
