import unittest
from ipaddress import IPv4Address, IPv4Interface, IPv6Address

import spop
from spop import I32, I64, U32, U64, Kind, Text, Value

from . import plain

V4, V6 = IPv4Address("192.0.2.1"), IPv6Address("2001:db8::1")

# A plain value, the kind that it gets, and its bytes.
PLAIN = [
    (None, Kind.NULL, "00"),
    (False, Kind.BOOL, "01"),
    (True, Kind.BOOL, "11"),
    (I32(0), Kind.I32, "0200"),
    (I32(-1), Kind.I32, "02fff0fefefefefefefe0e"),
    (I32(-2**31), Kind.I32, "02" + plain.number(2**64 - 2**31).hex()),
    (I32(2**31 - 1), Kind.I32, "02" + plain.number(2**31 - 1).hex()),
    (U32(3), Kind.U32, "0303"),
    (U32(2**32 - 1), Kind.U32, "03" + plain.number(2**32 - 1).hex()),
    (I64(1250), Kind.I64, "04f23f"),
    (I64(-730), Kind.I64, "04f6c3fefefefefefefe0e"),
    (I64(-2**63), Kind.I64, "04" + plain.number(2**63).hex()),
    (U64(240), Kind.U64, "05f000"),
    (U64(2**64 - 1), Kind.U64, "05fff0fefefefefefefe0e"),
    (V4, Kind.IPV4, "06c0000201"),
    (V6, Kind.IPV6, "0720010db8000000000000000000000001"),
    ("", Kind.STRING, "0800"),
    ("é€", Kind.STRING, "0805c3a9e282ac"),
    (b"", Kind.BINARY, "0900"),
    (b"\x00\xff", Kind.BINARY, "090200ff"),
]


class Values(unittest.TestCase):
    def test_plain_values_there_and_back(self):
        for value, kind, written in PLAIN:
            with self.subTest(value=value):
                self.assertIs(kind, spop.kind_of(value))
                self.assertEqual(written, spop.write_value(value).hex())
                self.assertEqual(len(written) // 2, spop.value_len(value))
                self.assertIs(spop.Refusal.DONE, spop.check_value(value))
                self.assertEqual((Value(value, kind), len(written) // 2), spop.typed_data(bytes.fromhex(written) + b"\xff"))
                (read, _, _), _ = spop.typed_data(bytes.fromhex(written))
                self.assertIs(kind, spop.kind_of(read))
                self.assertEqual(written, spop.write_value(read).hex())

    def test_an_int_without_a_width_is_an_i64_and_else_a_u64(self):
        for number, kind in ((0, Kind.I64), (-2**63, Kind.I64), (2**63 - 1, Kind.I64), (2**63, Kind.U64), (2**64 - 1, Kind.U64)):
            self.assertIs(kind, spop.kind_of(number))
            self.assertEqual(plain.value(kind, number), spop.write_value(number))

    def test_an_int_that_is_out_of_range(self):
        for width in (I32, U32, I64, U64):
            for number in (width.least - 1, width.most + 1):
                said = f"{number} is no {width.__name__.lower()}: that has to be {width.least} to {width.most}"
                with self.assertRaisesRegex(ValueError, said):
                    width(number)
                with self.assertRaises(ValueError):
                    spop.write_value(Value(number, width.kind))
            self.assertEqual((width.least, width.most), (width(width.least), width(width.most)))
        for number in (-2**63 - 1, 2**64):
            with self.assertRaisesRegex(ValueError, str(number)):
                spop.write_value(number)

    def test_a_width_takes_whole_numbers_alone(self):
        for width in (I32, U32, I64, U64):
            for other in (1.5, 1.0, "1", None, b"1"):
                with self.assertRaises(TypeError):
                    width(other)

    def test_a_width_is_an_int(self):
        self.assertEqual(("3", "3", 4, int), (str(U32(3)), f"{U32(3)}", U32(3) + 1, type(U32(3) + 1)))

    def test_each_kind_takes_its_own_values_alone(self):
        samples = {Kind.NULL: None, Kind.BOOL: True, Kind.I32: 1, Kind.U32: 1, Kind.I64: 1, Kind.U64: 1, Kind.IPV4: V4,
                   Kind.IPV6: V6, Kind.STRING: "1", Kind.BINARY: b"1"}
        for kind in Kind:
            for other, value in samples.items():
                taken = other == kind or {kind, other} <= {Kind.I32, Kind.U32, Kind.I64, Kind.U64}
                if taken or (kind, other) == (Kind.STRING, Kind.BINARY):
                    self.assertEqual(kind, spop.write_value(Value(value, kind))[0] & 15)
                else:
                    with self.assertRaises(TypeError, msg=f"{kind!r} {value!r}"):
                        spop.write_value(Value(value, kind))

    def test_what_is_no_value(self):
        for value in (1.5, [], {}, ("a",), object(), Value(Value(1, Kind.U32), Kind.U32)):
            for call in (spop.kind_of, spop.write_value, spop.value_len, spop.check_value):
                with self.assertRaises(TypeError):
                    call(value)
        with self.assertRaises(ValueError):
            spop.write_value(Value(1, 10))

    def test_what_is_more_than_an_address(self):
        for value in (IPv4Interface("192.0.2.1/24"), IPv6Address("fe80::1%eth0")):
            with self.assertRaisesRegex(ValueError, "more than an address"):
                spop.write_value(value)

    def test_flags_are_kept(self):
        for kind, content in ((0, None), (2, -5), (3, 7), (4, -5), (5, 7), (6, V4), (7, V6), (8, "text"), (9, b"\xff")):
            for flags in (1, 2, 15):
                raw = getattr(content, "packed", content)
                written = plain.value(kind, raw.encode() if isinstance(raw, str) else raw, flags)
                self.assertEqual((Value(content, Kind(kind), flags), len(written)), spop.typed_data(written))
                self.assertEqual(written, spop.write_value(Value(content, Kind(kind), flags)))

    def test_worked_examples(self):
        for written, value in (("02f0f1fefe7e", Value(0, Kind.I32)), ("21", Value(False, Kind.BOOL)),
                               ("f1", Value(True, Kind.BOOL)), ("f0", Value(None, Kind.NULL, 15)), ("2307", Value(7, Kind.U32, 2))):
            self.assertEqual((value, len(written) // 2), spop.typed_data(bytes.fromhex(written)))

    def test_refusals_of_reading(self):
        for written, number, place in (("", 3, 0), ("0a", 8, 1), ("ff", 8, 1), ("03", 3, 1), ("03f0", 3, 2), ("06c00002", 3, 1),
                                       ("07" + 15 * "00", 3, 1), ("0803", 3, 2), ("080361", 3, 2), ("09f0", 3, 2),
                                       ("05f0" + 8 * "80" + "0f", 7, 11), ("05f0" + 8 * "80" + "10", 19, 11)):
            with self.subTest(written):
                self.assert_refused(number, place, spop.typed_data, bytes.fromhex(written))

    def test_refusals_of_writing(self):
        for value in (Value(None, Kind.NULL, 16), Value(True, Kind.BOOL, 1), Value("a", Kind.STRING, 2**64 - 1)):
            self.assertIs(spop.Refusal.NOT_WRITABLE, spop.check_value(value))
            self.assertEqual(0, spop.value_len(value))
            self.assert_refused(14, 0, spop.write_value, value)
        for flags in (-1, 2**64):
            with self.assertRaisesRegex(ValueError, "flags"):
                spop.write_value(Value(None, Kind.NULL, flags))

    def test_a_string_that_is_not_utf8_is_not_changed(self):
        for value in (Text(b"caf\xe9"), Value(b"caf\xe9", Kind.STRING)):
            self.assertIs(spop.Refusal.NOT_TEXT, spop.check_value(value))
            self.assertEqual(b"\x08\x04caf\xe9", spop.write_value(value))
        self.assertIs(spop.Refusal.NOT_TEXT, spop.check_value("\ud800"))
        self.assertIs(spop.Refusal.DONE, spop.check_value(b"caf\xe9"))

    def test_pairs(self):
        written = bytes.fromhex("04736c6f740307")
        self.assertEqual((spop.Pair("slot", 7, Kind.U32, 0), 7), spop.read_pair(written + b"\xff"))
        self.assertEqual((spop.Pair("", None, Kind.NULL, 15), 2), spop.read_pair(b"\x00\xf0"))
        for end, place in enumerate((0, 1, 1, 1, 1, 5, 6)):
            self.assert_refused(3, place, spop.read_pair, written[:end])
        self.assert_refused(8, 3, spop.read_pair, b"\x01A\x0a")

    def test_the_bytes_of_a_pair(self):
        for kind, content, raw in ((0, None, b""), (1, True, b""), (3, 5, b""), (6, V4.packed, V4.packed),
                                   (7, V6.packed, V6.packed), (8, b"caf\xe9", b"caf\xe9"), (9, b"\xff", b"\xff")):
            pair, _ = spop.read_pair(plain.pair(b"k\xff", kind, content))
            self.assertEqual((raw, b"k\xff", "k\ufffd"), (pair.raw, pair.key.raw, pair.key))
            self.assertEqual(Value(pair.value, pair.kind, pair.flags), pair.typed)

    def assert_refused(self, number, place, call, argument):
        with self.assertRaises(spop.Refused) as caught:
            call(argument)
        self.assertEqual((number, place), (caught.exception.number, caught.exception.place))


if __name__ == "__main__":
    unittest.main()
