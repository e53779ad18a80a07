import os
import subprocess
import sys
import unittest
from collections import OrderedDict
from pathlib import Path

import spop
from spop import I64, U32, Kind, Message, Pair, Scope, SetVar, Text, UnsetVar, Value

from . import plain
from .test_read import UPLOAD

PACKAGE = Path(spop.__file__).resolve().parent.parent
SLOTS = [("slot", U32(3)), ("delay", I64(1250)), ("slot", U32(17)), ("delay", I64(-730))]


class Writers(unittest.TestCase):
    def test_a_notify(self):
        as_pairs = [Pair("slot", 3, Kind.U32), Pair("delay", 1250, Kind.I64), Pair("slot", 17, Kind.U32),
                    Pair("delay", -730, Kind.I64)]
        for arguments in (SLOTS, as_pairs, iter(SLOTS), [[b"slot", U32(3)], (b"delay", 1250), *SLOTS[2:]]):
            self.assertEqual(UPLOAD, spop.write_notify(1, 1, [("upload", arguments)]))
        self.assertEqual(UPLOAD, spop.write_notify(1, 1, iter([Message("upload", as_pairs)])))

    def test_a_notify_of_several_messages(self):
        self.assertEqual(
            plain.frame(3, 2**64 - 1, 240, plain.message(b"m", plain.pair(b"a", 1, 1), plain.pair(b"a", 8, b"x")),
                        plain.message(b""), plain.message("é".encode(), plain.pair(b"b", 9, b"\xff", 15))),
            spop.write_notify(2**64 - 1, 240, [("m", [("a", True), ("a", "x")]), ("", []),
                                               ("é", [("b", Value(b"\xff", Kind.BINARY, 15))])]))
        self.assertEqual(plain.frame(3, 0, 0), spop.write_notify(0, 0, []))

    def test_an_exchange_is_another_frame(self):
        self.assertNotEqual(UPLOAD, spop.write_notify(1, 1, [("upload", [SLOTS[0], SLOTS[3], SLOTS[2], SLOTS[1]])]))

    def test_an_ack(self):
        written = bytes.fromhex("000000206700000001" "0102" "01030206" "736c6f745f61" "0307" "01030206" "736c6f745f62" "03fc03")
        actions = [SetVar(Scope.TRANSACTION, "slot_a", U32(7)), SetVar(2, "slot_b", U32(300))]
        self.assertEqual(written, spop.write_ack(1, 2, actions))

    def test_an_ack_of_every_scope_and_both_actions(self):
        actions = [action for scope in Scope for action in (SetVar(scope, "v", Value(None, Kind.NULL, 3)), UnsetVar(scope, b"w"))]
        payload = [part for scope in range(5) for part in (plain.set_var(scope, b"v", 0, None, 3), plain.unset_var(scope, b"w"))]
        self.assertEqual(plain.frame(103, 5, 6, *payload), spop.write_ack(5, 6, iter(actions)))
        self.assertEqual(plain.frame(103, 5, 6), spop.write_ack(5, 6, []))

    def test_a_hello(self):
        front = bytes.fromhex("000000366500000001" "0000" "0776657273696f6e0803322e30" "0e6d61782d6672616d652d73697a6503")
        behind = bytes.fromhex("0c6361706162696c69746965730800")
        self.assertEqual(front + b"\xfc\xf0\x06" + behind, spop.write_hello(16380))
        self.assertEqual(front + b"\xf0\xf1\x06" + behind, spop.write_hello())
        self.assertEqual(
            plain.frame(101, 0, 0, plain.pair(b"version", 8, b"2.1"), plain.pair(b"max-frame-size", 3, 256),
                        plain.pair(b"capabilities", 8, b"pipelining")),
            spop.write_hello(256, version="2.1", capabilities="pipelining"))

    def test_a_disconnect(self):
        written = bytes.fromhex("000000256600000001" "0000" "0b7374617475732d636f64650300" "076d65737361676508066e6f726d616c")
        self.assertEqual(written, spop.write_disconnect())
        items = plain.pair(b"status-code", 3, 2), plain.pair(b"message", 8, b"a timeout occurred")
        self.assertEqual(plain.frame(102, 0, 0, *items), spop.write_disconnect(2, "a timeout occurred"))

    def test_a_kv_list_with_any_flags_and_ids(self):
        pairs = [("version", "2.0"), Pair("healthcheck", False, Kind.BOOL)]
        payload = plain.pair(b"version", 8, b"2.0"), plain.pair(b"healthcheck", 1, 0)
        self.assertEqual(plain.frame(1, 0, 0, *payload), spop.write_kv(spop.FrameType.HAPROXY_HELLO, pairs))
        self.assertEqual(plain.frame(2, 3, 4, *payload, flags=2), spop.write_kv(2, pairs, 3, 4, fin=False, abort=True))
        self.assertEqual(plain.frame(2, 3, 4, flags=0), spop.write_kv(2, [], 3, 4, fin=False))

    def test_a_frame_as_long_as_the_limit(self):
        self.assertEqual(UPLOAD, spop.write_notify(1, 1, [("upload", SLOTS)], 55))
        # Beside its binary the frame has 13 bytes, and three or four for its length.
        for limit, room in ((spop.AGREED_FRAME, 16368), (spop.MAX_FRAME, 1048559)):
            self.assertEqual(plain.frame(3, 0, 0, plain.message(b"m", plain.pair(b"k", 9, bytes(room)))),
                             spop.write_notify(0, 0, [("m", [("k", bytes(room))])], limit))
            with self.assertRaises(spop.Refused) as caught:
                spop.write_notify(0, 0, [("m", [("k", bytes(room + 1))])], limit)
            self.assertEqual((12, 0), (caught.exception.number, caught.exception.place))


class Refusals(unittest.TestCase):
    def test_over_the_limit(self):
        self.assert_refused(12, 0, spop.write_notify, 1, 1, [("upload", SLOTS)], 54)
        self.assert_refused(12, 0, spop.write_notify, 1, 1, [("m", [("k", bytes(16384))])])
        self.assert_refused(12, 0, spop.write_ack, 1, 1, [UnsetVar(2, "v")], 0)
        self.assert_refused(12, 0, spop.write_hello, limit=53)
        self.assert_refused(12, 0, spop.write_disconnect, limit=36)

    def test_a_key_that_repeats_in_a_kv_list(self):
        self.assert_refused(9, 2, spop.write_kv, 1, [("a", 1), ("b", 1), ("a", 2)])

    def test_metadata(self):
        self.assert_refused(14, 0, spop.write_kv, 101, [], 1, 0)
        self.assert_refused(14, 0, spop.write_kv, 101, [], 0, 1)
        self.assert_refused(14, 0, spop.write_kv, 102, [], fin=False)
        self.assert_refused(14, 0, spop.write_kv, 102, [], abort=True)
        for type in (0, 3, 103, 2**64 - 1):
            self.assert_refused(14, 0, spop.write_kv, type, [])

    def test_records(self):
        self.assert_refused(14, 1, spop.write_ack, 1, 1, [SetVar(4, "v", 1), SetVar(5, "v", 1)])
        self.assert_refused(14, 0, spop.write_ack, 1, 1, [UnsetVar(2**64 - 1, "v")])
        self.assert_refused(14, 1, spop.write_kv, 1, [("a", 1), Pair("b", True, Kind.BOOL, 1)])
        messages = [("m", [("a", 1)]), ("m", [("a", 1), Pair("b", None, Kind.NULL, 16)])]
        self.assert_refused(14, 2, spop.write_notify, 1, 1, messages)

    def test_texts(self):
        for bad in (b"\xff", "\ud800", Text(b"caf\xe9")):
            self.assert_refused(15, 1, spop.write_notify, 1, 1, [("m", [("k", 1)]), (bad, [])])
            self.assert_refused(15, 1, spop.write_notify, 1, 1, [("m", [("k", 1)]), ("m", [(bad, 1)])])
            self.assert_refused(15, 0, spop.write_kv, 1, [("k", Value(bad, Kind.STRING))])
            self.assert_refused(15, 1, spop.write_ack, 1, 1, [SetVar(2, "v", 1), UnsetVar(2, bad)])

    def test_more_than_255_arguments(self):
        self.assertEqual(plain.frame(3, 1, 1, plain.message(b"m", *255 * [plain.pair(b"k", 4, 1)])),
                         spop.write_notify(1, 1, [("m", 255 * [("k", 1)])]))
        self.assert_refused(17, 1, spop.write_notify, 1, 1, [("m", []), ("m", 256 * [("k", 1)])])

    def assert_refused(self, number, place, call, *words, **named):
        with self.assertRaises(spop.Refused) as caught:
            call(*words, **named)
        self.assertEqual((number, place, None), (caught.exception.number, caught.exception.place, caught.exception.skip))


class WrongWays(unittest.TestCase):
    def test_ids_and_limits_that_ctypes_would_cut(self):
        for call in (lambda *ids, **more: spop.write_notify(*ids, [], **more),
                     lambda *ids, **more: spop.write_ack(*ids, [], **more),
                     lambda *ids, **more: spop.write_kv(1, [], *ids, **more)):
            for ids in ((-1, 0), (2**64, 0), (0, -1), (0, 2**64)):
                with self.assertRaisesRegex(ValueError, "_id has to be"):
                    call(*ids)
            for limit in (-1, 2**32):
                with self.assertRaisesRegex(ValueError, "limit has to be"):
                    call(0, 0, limit=limit)
        for call in (spop.write_hello, spop.write_disconnect):
            with self.assertRaisesRegex(ValueError, "4294967296 is no u32"):
                call(2**32)
        with self.assertRaises(ValueError):
            spop.write_ack(0, 0, [SetVar(-1, "v", 1)])
        with self.assertRaises(ValueError):
            spop.write_kv(2**64 + 1, [])

    def test_a_mapping_or_a_set_is_no_list(self):
        """What repeats is lost in them, and the order of a set is any. Each is of items that a list of them may have."""
        messages = {("m", ()): None}
        arguments = {("slot", 3): None, ("delay", 1250): None}
        actions = {UnsetVar(2, "slot"): None, UnsetVar(2, "delay"): None}
        versions = {(2, 0, 0, 0): None, (1, 0, 0, 0): None}
        for name, items, call in (("messages", messages, lambda items: spop.write_notify(0, 0, items)),
                                  ("arguments", arguments, lambda items: spop.write_notify(0, 0, [("m", items)])),
                                  ("arguments", arguments, lambda items: spop.write_notify(0, 0, [Message("m", items)])),
                                  ("arguments", arguments, lambda items: spop.write_kv(1, items)),
                                  ("actions", actions, lambda items: spop.write_ack(0, 0, items)),
                                  ("versions", versions, spop.negotiate_version)):
            by_value = dict(enumerate(items))
            call(list(items))
            for wrong in (items, OrderedDict(items), set(items), frozenset(items), items.keys(), by_value.values(), items.items(),
                          OrderedDict(by_value).values(), {}, {}.keys(), {}.values(), {}.items(), set(),
                          iter(set(items)), iter(items), iter(by_value.values()), iter(items.items())):
                said = f"{name} are a list, in its own order, in which one may repeat, and not {type(wrong).__name__}"
                with self.subTest(name, wrong=type(wrong).__name__), self.assertRaisesRegex(TypeError, said):
                    call(wrong)

    def test_a_set_is_refused_in_whatever_order_it_stands(self):
        """The order of a set of texts is drawn anew for each process, by PYTHONHASHSEED."""
        program = """import spop
for write in (lambda: spop.write_notify(1, 1, [("upload", {("slot", 3), ("delay", 1250), ("slot", 17), ("delay", -730)})]),
              lambda: spop.write_ack(1, 1, {spop.SetVar(2, "slot0", 3), spop.SetVar(2, "delay0", 1250)})):
    try:
        print(write().hex())
    except TypeError as error:
        print(error)
"""
        for seed in range(4):
            done = subprocess.run([sys.executable, "-c", program], capture_output=True, text=True, cwd=PACKAGE,
                                  env={**os.environ, "PYTHONHASHSEED": str(seed)})
            said = [f"{name} are a list, in its own order, in which one may repeat, and not set" for name in ("arguments", "actions")]
            self.assertEqual((said, ""), (done.stdout.splitlines(), done.stderr))

    def test_what_is_no_message(self):
        for messages, said in ((("upload", SLOTS), "a message is .*, and not str"), ([("upload",)], "not of 1 parts"),
                               ("up", "and not str"), ([("upload", SLOTS, 1)], "not of 3 parts"), ([5], "and not int"),
                               ([(5, SLOTS)], "a name .*, and not int"), ([("upload", "slot")], "arguments are a list"),
                               ([("upload", 5)], "not iterable"), (5, "not iterable")):
            with self.assertRaisesRegex(TypeError, said):
                spop.write_notify(0, 0, messages)

    def test_what_is_no_argument(self):
        for arguments, said in ((("slot", 3), "an argument is .*, and not str"), ([("slot",)], "not of 1 parts"),
                                (["ab"], "and not str"), ([("slot", 3, Kind.U32)], "not of 3 parts"),
                                ([(3, "slot")], "a key .*, and not int"), ([("slot", 1.5)], "and not float"),
                                ([("slot", Pair("slot", 3, Kind.U32))], "and not Pair")):
            with self.assertRaisesRegex(TypeError, said):
                spop.write_notify(0, 0, [("upload", arguments)])
            with self.assertRaisesRegex(TypeError, said):
                spop.write_kv(1, arguments)

    def test_what_is_no_action(self):
        for action in ((2, "v", 1), ("v", 1), "v", Pair("v", 1, Kind.I64)):
            with self.assertRaisesRegex(TypeError, "an action is a SetVar or an UnsetVar"):
                spop.write_ack(0, 0, [action])
        with self.assertRaises(TypeError):
            spop.write_ack(0, 0, SetVar(2, "v", 1))
        with self.assertRaises(TypeError):
            spop.write_ack(0, 0, [SetVar("transaction", "v", 1)])


if __name__ == "__main__":
    unittest.main()
