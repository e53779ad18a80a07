"""Random frames, made by plain.py: read, compared with what they were made from, and written back."""
import random
import threading
import unittest
from ipaddress import IPv4Address, IPv6Address

import spop
from spop import Kind

from . import plain

ROUNDS = 1500
CHARACTERS = "az09_-.\x00\x7f\x80é߿ࠀ€\ud7ff\ue000\uffff\U00010000😀\U0010ffff"
RANGES = {2: (-2**31, 2**31 - 1), 3: (0, 2**32 - 1), 4: (-2**63, 2**63 - 1), 5: (0, 2**64 - 1)}


def some_text(chance):
    return "".join(chance.choices(CHARACTERS, k=chance.choice((0, 1, 4, 12, 60)))).encode()


def some_bytes(chance):
    return chance.randbytes(chance.choice((0, 1, 3, 16, 300)))


def some_integer(chance, kind):
    least, most = RANGES[kind]
    near = chance.choice((least, 0, 239, 240, 2287, 2288, most))
    return min(most, max(least, chance.choice((near, near + chance.randint(-2, 2), chance.randint(least, most)))))


def some_value(chance, text):
    """A kind, the content that plain.py takes, the flags, and the plain value."""
    kind = chance.randrange(10)
    flags = chance.choice((0, 0, 0, chance.randrange(16)))
    if kind == 0:
        return 0, None, flags, None
    if kind == 1:
        bit = chance.randrange(2)
        return 1, bit, 0, bool(bit)
    if kind <= 5:
        number = some_integer(chance, kind)
        return kind, number, flags, number
    if kind <= 7:
        raw = chance.randbytes(4 if kind == 6 else 16)
        return kind, raw, flags, (IPv4Address if kind == 6 else IPv6Address)(raw)
    raw = text(chance) if kind == 8 else some_bytes(chance)
    return kind, raw, flags, plain.lossy(raw).decode() if kind == 8 else raw


def some_pairs(chance, text, count):
    return [(text(chance), *some_value(chance, text)) for _ in range(count)]


def bytes_of(pairs):
    return [plain.pair(key, kind, content, flags) for key, kind, content, flags, _ in pairs]


def read_as(pairs):
    return [(plain.lossy(key).decode(), value, Kind(kind), flags) for key, kind, _, flags, value in pairs]


class Rounds(unittest.TestCase):
    def test_notify_frames(self):
        chance = random.Random(1)
        for _ in range(ROUNDS):
            data, messages, ids = self.some_notify(chance, some_text)
            frame = spop.read_frame(data + chance.randbytes(3), len(data) - 4)
            self.assertEqual((3, 1, *ids, len(data)), frame[:5])
            self.assertEqual([(name.decode(), read_as(pairs)) for name, pairs in messages], frame.messages)
            self.assertEqual([pair for _, pairs in messages for pair in read_as(pairs)], frame.pairs)
            self.assertEqual(data, spop.write_notify(*ids, frame.messages, len(data) - 4))

    def test_values_alone_are_enough_where_there_are_no_flags(self):
        chance = random.Random(2)
        for _ in range(ROUNDS):
            data, _, ids = self.some_notify(chance, some_text, flags=False)
            frame = spop.read_frame(data)
            messages = [(message.name, [(pair.key, pair.value) for pair in message.arguments]) for message in frame.messages]
            self.assertEqual(data, spop.write_notify(*ids, messages, spop.MAX_FRAME))

    def test_kv_frames(self):
        chance = random.Random(3)
        for _ in range(ROUNDS):
            pairs = list({pair[0]: pair for pair in some_pairs(chance, some_text, chance.choice((0, 1, 3, 20)))}.values())
            type, ids = chance.choice((1, 2)), (chance.randrange(2**64), chance.randrange(300))
            data = plain.frame(type, *ids, *bytes_of(pairs))
            frame = spop.read_frame(data)
            self.assertEqual((type, 1, *ids, len(data), [], read_as(pairs)), frame)
            self.assertEqual(data, spop.write_kv(type, frame.pairs, *ids))

    def test_texts_of_any_bytes_are_read_and_never_written_changed(self):
        chance = random.Random(4)
        refused = 0
        for _ in range(ROUNDS):
            data, messages, ids = self.some_notify(chance, lambda chance: chance.randbytes(chance.choice((0, 1, 2))))
            frame = spop.read_frame(data)
            self.assertEqual([(plain.lossy(name).decode(), read_as(pairs)) for name, pairs in messages], frame.messages)
            self.assertEqual([pair[0] for _, pairs in messages for pair in pairs], [pair.key.raw for pair in frame.pairs])
            place = self.first_that_is_no_text(messages)
            if place is None:
                self.assertEqual(data, spop.write_notify(*ids, frame.messages, spop.MAX_FRAME))
                continue
            with self.assertRaises(spop.Refused) as caught:
                spop.write_notify(*ids, frame.messages, spop.MAX_FRAME)
            self.assertEqual((15, place), (caught.exception.number, caught.exception.place))
            refused += 1
        self.assertGreater(refused, ROUNDS // 10)
        self.assertLess(refused, ROUNDS)

    def test_both_readers_agree(self):
        chance = random.Random(5)
        for _ in range(ROUNDS):
            data, _, _ = self.some_notify(chance, some_text)
            data = bytearray(data)
            for _ in range(chance.choice((0, 1, 3))):
                data[chance.randrange(4, len(data))] = chance.randrange(256)
            self.assertEqual(*[self.answer(call, data) for call in (spop.read_frame, spop.read_frame_records)])

    def test_threads_do_not_disturb_each_other(self):
        wrong = []

        def work(seed):
            chance = random.Random(seed)
            for _ in range(100):
                data, _, ids = self.some_notify(chance, some_text)
                if spop.write_notify(*ids, spop.read_frame(data).messages, spop.MAX_FRAME) != data:
                    wrong.append(seed)

        threads = [threading.Thread(target=work, args=(seed,)) for seed in range(6)]
        for thread in threads:
            thread.start()
        for thread in threads:
            thread.join()
        self.assertEqual([], wrong)

    def some_notify(self, chance, text, flags=True):
        messages = []
        for _ in range(chance.choice((0, 1, 1, 2, 5))):
            pairs = some_pairs(chance, text, chance.choice((0, 1, 4, 9)))
            if not flags:
                pairs = [(key, kind, content, 0, value) for key, kind, content, _, value in pairs]
            messages.append((text(chance), pairs))
        ids = chance.choice((0, 1, 240, chance.randrange(2**64))), chance.choice((0, 1, 2**64 - 1))
        return plain.frame(3, *ids, *[plain.message(name, *bytes_of(pairs)) for name, pairs in messages]), messages, ids

    def first_that_is_no_text(self, messages):
        """The index of the first message, or then of the first pair, with a text that is refused."""
        pairs = [pair for _, pairs in messages for pair in pairs]
        lists = [[plain.is_utf8(name) for name, _ in messages],
                 [plain.is_utf8(key) and (kind != 8 or plain.is_utf8(content)) for key, kind, content, _, _ in pairs]]
        return next((well.index(False) for well in lists if False in well), None)

    def answer(self, call, data):
        try:
            frame = call(data)
        except spop.Refused as refused:
            return refused.number, refused.place, refused.skip
        return (*frame[:5], len(frame.messages), [(pair.kind, pair.flags) for pair in frame.pairs])


if __name__ == "__main__":
    unittest.main()
