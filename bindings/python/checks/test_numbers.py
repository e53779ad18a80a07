import unittest

import spop

from . import plain

# How many bytes, and the least and the largest number that has so many: docs/RULES.md, "Numbers".
LENGTHS = [
    (1, 0, 239), (2, 240, 2287), (3, 2288, 264431), (4, 264432, 33818863), (5, 33818864, 4328786159),
    (6, 4328786160, 554084600047), (7, 554084600048, 70922828777711), (8, 70922828777712, 9078122083518703),
    (9, 9078122083518704, 1161999626690365679), (10, 1161999626690365680, 2**64 - 1),
]

# docs/RULES.md, "Worked examples".
WORKED = {239: "ef", 240: "f000", 2287: "ff7f", 2288: "f08000", 2**64 - 1: "fff0fefefefefefefe0e"}


class Numbers(unittest.TestCase):
    def test_worked_examples(self):
        for number, written in WORKED.items():
            self.assertEqual(written, spop.encode_varint(number).hex())
            self.assertEqual((number, len(written) // 2), spop.decode_varint(bytes.fromhex(written)))

    def test_there_and_back_at_the_edges_of_the_lengths(self):
        for length, least, most in LENGTHS:
            for number in (least, least + 1, (least + most) // 2, most - 1, most):
                written = plain.number(number)
                self.assertEqual(length, spop.varint_len(number))
                self.assertEqual(written, spop.encode_varint(number))
                self.assertEqual((number, length), spop.decode_varint(written + b"\xff\xff"))

    def test_a_number_that_is_cut_is_refused_at_the_end(self):
        for length, _, most in LENGTHS:
            for end in range(length):
                self.assert_refused(3, end, plain.number(most)[:end])

    def test_refusals_at_the_tenth_byte(self):
        self.assert_refused(19, 10, b"\xf0" + 8 * b"\x80" + b"\x10")
        self.assert_refused(7, 10, b"\xf0" + 8 * b"\x80" + b"\x0f")
        self.assert_refused(19, 10, b"\xf0" + 9 * b"\x80" + b"\x00")

    def test_what_is_no_number_of_64_bits(self):
        for call in (spop.varint_len, spop.encode_varint):
            for number in (-1, 2**64, 2**80):
                with self.assertRaisesRegex(ValueError, str(number)):
                    call(number)
            for other in ("1", 1.0, None):
                with self.assertRaises(TypeError):
                    call(other)

    def test_bytes_of_any_type(self):
        for data in (b"\xf0\x00", bytearray(b"\xf0\x00"), memoryview(b"\xf0\x00"), memoryview(b"\xf0-\x00-")[::2]):
            self.assertEqual((240, 2), spop.decode_varint(data))
        for other in ("\xf0\x00", 5, None, [240, 0]):
            with self.assertRaises(TypeError):
                spop.decode_varint(other)

    def assert_refused(self, number, place, data):
        with self.assertRaises(spop.Refused) as caught:
            spop.decode_varint(data)
        self.assertEqual((number, place), (caught.exception.number, caught.exception.place))


class Negotiation(unittest.TestCase):
    def test_the_smaller_size(self):
        self.assertEqual(256, spop.negotiate_max_frame_size(256, 256))
        self.assertEqual(16380, spop.negotiate_max_frame_size(16380, 16384))
        self.assertEqual(16380, spop.negotiate_max_frame_size(16384, 16380))
        self.assertEqual(2**32 - 1, spop.negotiate_max_frame_size(2**32 - 1, 2**32 - 1))

    def test_a_size_under_256(self):
        for theirs, ours in ((255, 256), (256, 255), (0, 0)):
            with self.assertRaises(spop.Refused) as caught:
                spop.negotiate_max_frame_size(theirs, ours)
            self.assertEqual((13, 0), (caught.exception.number, caught.exception.place))

    def test_a_size_over_32_bits(self):
        for theirs, ours in ((2**32 + 300, 300), (300, 2**32 + 300), (-1, 300)):
            with self.assertRaises(ValueError):
                spop.negotiate_max_frame_size(theirs, ours)

    def test_the_version(self):
        self.assertEqual((2, 0, 0), spop.negotiate_version([(1, 0, 0, 0), (2, 3, 4, 0)]))
        self.assertEqual((2, 0, 0), spop.negotiate_version(iter([[2, 0, 0, 0]])))
        self.assertIsNone(spop.negotiate_version([(1, 2, 2, 2), (3, 0, 0, 0), (2**64 - 1, 0, 0, 0)]))
        self.assertIsNone(spop.negotiate_version([]))
        self.assertEqual((2, 0, 0), spop.negotiate_version([(1, 0, 0, 0)] * 100 + [(2, 0, 0, 0)]))

    def test_a_release_candidate(self):
        self.assertIsNone(spop.negotiate_version([(2, 0, 0, 1), (2, 0, 0, 2**64 - 1)]))
        self.assertEqual((2, 0, 0), spop.negotiate_version([(2, 0, 1, 1)]))
        self.assertEqual((2, 0, 0), spop.negotiate_version([(2, 1, 0, 1)]))
        self.assertEqual((2, 0, 0), spop.negotiate_version([(2, 0, 0, 1), (2, 0, 0, 0)]))

    def test_what_is_no_version(self):
        for versions in ([(2, 0)], [(2, 0, 0)], ["2.0"], "2.0", [2, 0, 0, 0]):
            with self.assertRaises(TypeError):
                spop.negotiate_version(versions)
        with self.assertRaises(ValueError):
            spop.negotiate_version([(2**64 + 2, 0, 0, 0)])


if __name__ == "__main__":
    unittest.main()
