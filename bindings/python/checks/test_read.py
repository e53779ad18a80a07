import unittest
from ipaddress import IPv4Address, IPv6Address

import spop
from spop import Frame, FrameType, Kind, Message, MessageRecord, Pair, PairRecord, Records

from . import plain

# README's "A whole program".
UPLOAD = bytes.fromhex("00000037030000000101010675706c6f61640404736c6f7403030564656c617904f23f04736c6f7403110564656c617904"
                       "f6c3fefefefefefefe0e")

# A number with ten bytes, of which the last is too large, and one whose sum is.
NOT_FITTING = b"\xf0" + 8 * b"\x80" + b"\x10"
TOO_LARGE = b"\xf0" + 8 * b"\x80" + b"\x0f"


def with_length(body):
    return len(body).to_bytes(4, "big") + body


class Frames(unittest.TestCase):
    def test_an_upload(self):
        slots = [Pair("slot", 3, Kind.U32, 0), Pair("delay", 1250, Kind.I64, 0), Pair("slot", 17, Kind.U32, 0),
                 Pair("delay", -730, Kind.I64, 0)]
        expected = Frame(FrameType.NOTIFY, 1, 1, 1, 59, [Message("upload", slots)], slots)
        for data in (UPLOAD, UPLOAD + b"\xff", bytearray(UPLOAD), memoryview(UPLOAD)):
            self.assertEqual(expected, spop.read_frame(data))
            self.assertEqual(expected, spop.read_frame(data, 55))

    def test_the_records_of_an_upload(self):
        pairs = [PairRecord(20, 4, 3, 3, 0, 0), PairRecord(27, 5, 4, 1250, 0, 0), PairRecord(36, 4, 3, 17, 0, 0),
                 PairRecord(43, 5, 4, 2**64 - 730, 0, 0)]
        self.assertEqual(Records(FrameType.NOTIFY, 1, 1, 1, 59, [MessageRecord(12, 6, 0, 4)], pairs),
                         spop.read_frame_records(UPLOAD + b"\xff"))

    def test_every_kind_as_a_plain_value(self):
        contents = [(0, None, None), (1, 0, False), (1, 1, True), (2, -5, -5), (3, 2**32 - 1, 2**32 - 1), (4, -2**63, -2**63),
                    (5, 2**64 - 1, 2**64 - 1), (6, b"\x7f\0\0\1", IPv4Address("127.0.0.1")),
                    (7, 15 * b"\0" + b"\1", IPv6Address("::1")), (8, "é".encode(), "é"), (8, b"\xe9", "\ufffd"),
                    (9, b"\xe9", b"\xe9")]
        data = plain.frame(3, 0, 0, plain.message(b"m", *[plain.pair(b"k", kind, content) for kind, content, _ in contents]))
        read = spop.read_frame(data).messages[0].arguments
        self.assertEqual([(Kind(kind), value) for kind, _, value in contents], [(pair.kind, pair.value) for pair in read])
        for (_, _, value), pair in zip(contents, read):
            self.assertIsInstance(pair.value, type(value))

    def test_messages_keep_their_own_arguments(self):
        data = plain.frame(3, 7, 8, plain.message(b"m", plain.pair(b"a", 3, 1), plain.pair(b"b", 0, None, 15)),
                           plain.message(b""), plain.message(b"m", plain.pair(b"a", 3, 1)))
        a, b = Pair("a", 1, Kind.U32, 0), Pair("b", None, Kind.NULL, 15)
        messages = [Message("m", [a, b]), Message("", []), Message("m", [a])]
        self.assertEqual(Frame(FrameType.NOTIFY, 1, 7, 8, len(data), messages, [a, b, a]), spop.read_frame(data))

    def test_a_kv_list(self):
        data = plain.frame(1, 0, 0, plain.pair(b"supported-versions", 8, b"2.0"), plain.pair(b"max-frame-size", 3, 16380),
                           plain.pair(b"healthcheck", 1, 1))
        self.assertEqual(Frame(FrameType.HAPROXY_HELLO, 1, 0, 0, len(data), [], [
            Pair("supported-versions", "2.0", Kind.STRING, 0), Pair("max-frame-size", 16380, Kind.U32, 0),
            Pair("healthcheck", True, Kind.BOOL, 0)]), spop.read_frame(data))
        empty = plain.frame(2, 2**64 - 1, 240)
        self.assertEqual(Frame(FrameType.HAPROXY_DISCONNECT, 1, 2**64 - 1, 240, len(empty), [], []), spop.read_frame(empty))

    def test_names_and_keys_keep_their_bytes(self):
        frame = spop.read_frame(plain.frame(3, 0, 0, plain.message(b"m\xff", plain.pair(b"k\xfe", 8, b"v\xfd"))))
        pair = frame.pairs[0]
        self.assertEqual((b"m\xff", b"k\xfe", b"v\xfd", b"v\xfd"),
                         (frame.messages[0].name.raw, pair.key.raw, pair.value.raw, pair.raw))

    def test_as_many_messages_and_pairs_as_there_are(self):
        for count in (63, 64, 65, 511, 512, 513, 5000):
            self.assert_all_read(plain.frame(3, 0, 0, count * plain.message(b"")), count, 0)
            full, rest = divmod(count, 255)
            messages = full * plain.message(b"", *255 * [b"\0\0"]) + plain.message(b"", *rest * [b"\0\0"])
            self.assert_all_read(plain.frame(3, 0, 0, messages), full + 1, count)
            keys = min(count, 4160)
            self.assert_all_read(plain.frame(1, 0, 0, *[plain.pair(b"%d" % k, 0, None) for k in range(keys)]), 0, keys)

    def assert_all_read(self, data, messages, pairs):
        frame, records = spop.read_frame(data), spop.read_frame_records(data)
        self.assertEqual((messages, pairs, len(data)), (len(frame.messages), len(frame.pairs), frame.used))
        self.assertEqual((messages, pairs, len(data)), (len(records.messages), len(records.pairs), records.used))


class Waits(unittest.TestCase):
    def test_a_frame_that_is_cut_anywhere(self):
        for end in range(len(UPLOAD)):
            for call in (spop.read_frame, spop.read_frame_records):
                with self.assertRaises(spop.Incomplete) as caught:
                    call(UPLOAD[:end])
                self.assertEqual(4 - end if end < 4 else 59 - end, caught.exception.missing)

    def test_the_limit_is_asked_before_the_rest_is_waited_for(self):
        with self.assertRaises(spop.Incomplete) as caught:
            spop.read_frame((1048576).to_bytes(4, "big"))
        self.assertEqual(1048576, caught.exception.missing)
        with self.assertRaises(spop.Refused) as caught:
            spop.read_frame((1048577).to_bytes(4, "big"))
        self.assertEqual((2, 4, 1048581), (caught.exception.number, caught.exception.place, caught.exception.skip))


class Refusals(unittest.TestCase):
    def test_each_with_its_place(self):
        for data, number, place in (
                (UPLOAD, 0, 0),
                ("00000000", 3, 4),
                ("0000000104", 4, 4),
                ("0000000103", 3, 5),
                ("0000000403000000", 3, 5),
                (plain.frame(3, 1, 1, flags=0), 4, 4),
                (plain.frame(3, 1, 1, flags=2), 4, 4),
                (plain.frame(3, 1, 1, flags=5), 4, 4),
                (plain.frame(101, 0, 0, flags=2), 4, 4),
                (plain.frame(3, 1, 1, flags=3), 5, 4),
                (plain.frame(101, 0, 0), 6, 4),
                (plain.frame(102, 0, 0), 6, 4),
                (plain.frame(103, 0, 0), 6, 4),
                ("000000050300000001", 3, 9),
                ("00000006030000000101", 3, 10),
                (with_length(b"\3\0\0\0\1" + NOT_FITTING + b"\0"), 19, 19),
                (with_length(b"\3\0\0\0\1" + TOO_LARGE + b"\0"), 7, 19),
                (with_length(b"\3\0\0\0\1\0" + NOT_FITTING), 19, 20),
                (plain.frame(1, 0, 0, b"\1A\x0a"), 8, 14),
                (plain.frame(1, 0, 0, b"\2A\xff\0\2A\xfe\0"), 9, 19),
                (plain.frame(1, 0, 0, b"\1A"), 3, 13),
                (plain.frame(3, 0, 0, b"\5a"), 3, 12),
                (plain.frame(3, 0, 0, b"\1m"), 3, 13),
                (plain.frame(3, 0, 0, b"\1m\1"), 3, 14),
                (plain.frame(3, 0, 0, b"\1m\1\1k"), 3, 16),
                (plain.frame(3, 0, 0, b"\0\1\0\x0a"), 8, 15),
                (plain.frame(3, 0, 0, b"\0\1\0\6\0\0\0"), 3, 15),
                (plain.frame(3, 0, 0, b"\0\1\0\5" + TOO_LARGE), 7, 25)):
            data = bytes.fromhex(data) if isinstance(data, str) else data
            for behind in (b"", 300 * b"\0"):
                with self.subTest(data=data, behind=len(behind)):
                    self.assertEqual((number, place), self.answer(data, behind))

    def test_no_room(self):
        two = plain.frame(1, 0, 0, b"\2AB\0\2AC\0")
        message = plain.frame(3, 0, 0, plain.message(b"m", b"\0\0", b"\0\0"))
        self.assertEqual((10, 19), self.answer(two, max_pairs=1))
        self.assertEqual((10, 15), self.answer(two, max_pairs=0))
        self.assertEqual((0, 0), self.answer(two, max_pairs=2, max_messages=0))
        self.assertEqual((10, 14), self.answer(message, max_messages=0))
        self.assertEqual((10, 18), self.answer(message, max_messages=1, max_pairs=1))
        self.assertEqual((0, 0), self.answer(message, max_messages=2**64 - 1, max_pairs=2**64 - 1))

    def test_no_room_in_a_long_frame(self):
        data = plain.frame(3, 0, 0, 5000 * plain.message(b""))
        self.assertEqual((10, 11 + 2 * 1001), self.answer(data, max_messages=1000))
        self.assertEqual((0, 0), self.answer(data, max_messages=5000, max_pairs=0))
        pairs = plain.frame(1, 0, 0, *[plain.pair(b"%d" % k, 0, None) for k in range(1000)])
        self.assertEqual((0, 0), self.answer(pairs, max_messages=0, max_pairs=1000))
        self.assertEqual((10, len(pairs)), self.answer(pairs, max_messages=0, max_pairs=999))

    def test_the_most_keys_of_a_list(self):
        """Each key is compared with those before it, so a list has an end unless the caller asks for more."""
        pairs = [plain.pair(b"%d" % k, 0, None) for k in range(4161)]
        most, more = plain.frame(1, 0, 0, *pairs[:4160]), plain.frame(2, 0, 0, *pairs)
        self.assertEqual((0, 0), self.answer(most))
        self.assertEqual((10, len(more)), self.answer(more))
        self.assertEqual((0, 0), self.answer(more, max_pairs=4161))

    def test_a_later_refusal_is_found_behind_many_records(self):
        for count in (64, 65, 600):
            data = plain.frame(3, 0, 0, count * plain.message(b""), b"\0\1\0\x0a")
            self.assertEqual((8, 11 + 2 * count + 4), self.answer(data))

    def test_what_cannot_be_asked(self):
        for limit in (-1, 2**32):
            with self.assertRaisesRegex(ValueError, "limit"):
                spop.read_frame(UPLOAD, limit)
        for rooms in ({"max_pairs": -1}, {"max_messages": -1}, {"max_pairs": 2**64}):
            with self.assertRaisesRegex(ValueError, "max_"):
                spop.read_frame(UPLOAD, **rooms)
        for data in ("text", None, 59, [0, 0, 0, 0]):
            with self.assertRaises(TypeError):
                spop.read_frame(data)

    def answer(self, data, behind=b"", **rooms):
        """The number and the place, which both readers have to give."""
        answers = []
        for call in (spop.read_frame, spop.read_frame_records):
            try:
                call(data + behind, **rooms)
                answers.append((0, 0))
            except spop.Refused as refused:
                self.assertEqual((len(data), b""), (refused.skip, refused.frame))
                answers.append((refused.number, refused.place))
        self.assertEqual(answers[0], answers[1])
        return answers[0]


if __name__ == "__main__":
    unittest.main()
