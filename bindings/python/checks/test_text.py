import copy
import itertools
import pickle
import unittest

import spop

from . import plain

# The edges of the ranges of table 3-7, for third and fourth bytes.
EDGES = bytes([0x00, 0x7F, 0x80, 0x8F, 0x90, 0x9F, 0xA0, 0xBF, 0xC0, 0xFF])
FIRSTS = bytes([0x41, 0xC1, 0xC2, 0xDF, 0xE0, 0xE1, 0xEC, 0xED, 0xEE, 0xEF, 0xF0, 0xF1, 0xF3, 0xF4, 0xF5, 0xFF])


class Texts(unittest.TestCase):
    def test_worked_examples(self):
        self.assertEqual("\ufffd\ufffd\ufffd", spop.lossy_text(b"\xed\xa0\x80"))
        self.assertEqual("\ufffd", spop.lossy_text(b"\xe2\x82"))
        self.assertEqual("caf\ufffd", spop.lossy_text(b"caf\xe9"))
        self.assertEqual("", spop.lossy_text(b""))
        self.assertEqual("a\x00é€😀", spop.lossy_text("a\x00é€😀".encode()))

    def test_every_string_of_up_to_two_bytes_and_longer_ones_at_the_edges(self):
        short = itertools.chain.from_iterable(itertools.product(range(256), repeat=length) for length in range(3))
        long = itertools.chain.from_iterable(itertools.product(FIRSTS, *[EDGES] * length) for length in (2, 3))
        for data in map(bytes, itertools.chain(short, long)):
            expected = plain.is_utf8(data), plain.lossy(data), plain.lossy(data)
            if expected != (spop.is_utf8(data), spop.lossy_text(data).encode(), spop.Text(data).encode()):
                self.fail(data.hex())

    def test_the_same_text(self):
        for same in (spop.same_text, spop.same_text_plain):
            self.assertTrue(same(b"slot", b"slot"))
            self.assertFalse(same(b"slot", b"slot "))
            self.assertFalse(same(b"slot", b"Slot"))
            self.assertTrue(same(b"A\xff", b"A\xfe"))
            self.assertTrue(same(b"A\xff", "A\ufffd".encode()))
            self.assertTrue(same(b"", b""))
            self.assertFalse(same(b"", b"\x00"))

    def test_bytes_are_asked_for(self):
        for call in (spop.is_utf8, spop.lossy_text, lambda text: spop.same_text(text, b""),
                     lambda text: spop.same_text(b"", text), lambda text: spop.same_text_plain(text, b""),
                     lambda text: spop.same_text_plain(b"", text)):
            with self.assertRaises(TypeError):
                call("text")

    def test_a_text_keeps_its_bytes(self):
        text = spop.Text(b"caf\xe9")
        self.assertEqual("caf\ufffd", text)
        self.assertIsInstance(text, str)
        self.assertEqual(b"caf\xe9", text.raw)
        for other in (pickle.loads(pickle.dumps(text)), copy.copy(text), copy.deepcopy(text)):
            self.assertEqual((text, b"caf\xe9"), (other, other.raw))


if __name__ == "__main__":
    unittest.main()
