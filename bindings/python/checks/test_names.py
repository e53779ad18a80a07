"""The names of the numbers, held against docs/RULES.md."""
import pickle
import re
import unittest

import spop

from . import TOP

RULES = (TOP / "docs/RULES.md").read_text("utf-8")

# The same in every language.
TEXTS = {
    0: "done",
    1: "the frame is not whole yet",
    2: "the frame's length is over the limit",
    3: "the bytes end too soon",
    4: "the frame's type or flags are unknown",
    5: "the frame has ABORT set",
    6: "the frame is one that the other side sends",
    7: "a number is over 64 bits",
    8: "a data type is none of 0 to 9",
    9: "a key is met twice",
    10: "a table has no room for a record",
    11: "the output is too short",
    12: "the frame to be written is over the limit",
    13: "a frame size is under 256",
    14: "a record or the frame's metadata is not writable",
    15: "a text is not UTF-8",
    16: "a record points outside its buffer, or a count outside its table",
    17: "a message has more than 255 arguments",
    18: "an action, its argument count or its scope is unknown",
    19: "a number's tenth byte is above 15",
}


class Names(unittest.TestCase):
    def test_refusals_are_those_of_the_rules(self):
        rows = re.findall(r"^\| (\d+) \| `([A-Z_]+)` \|", RULES, re.M)
        self.assertEqual(19, len(rows))
        self.assertEqual({"DONE": 0, **{name: int(number) for number, name in rows}},
                         {member.name: member.value for member in spop.Refusal})

    def test_frame_types_are_those_of_the_rules(self):
        rows = re.findall(r"^\| (\d+) \| ([A-Z-]+) \| (?:a KV list|messages|actions) \|$", RULES, re.M)
        self.assertEqual({name.replace("-", "_"): int(number) for number, name in rows},
                         {member.name: member.value for member in spop.FrameType})

    def test_kinds_are_those_of_the_rules(self):
        rows = re.findall(r"^\| (\d) \| (\w+) \| (?:nothing|a number|\d+ bytes|a length)", RULES, re.M)
        self.assertEqual({name.upper(): int(number) for number, name in rows},
                         {member.name: member.value for member in spop.Kind})

    def test_scopes_are_those_of_the_rules(self):
        line = re.search(r"^Scopes are (.*)\.$", RULES, re.M).group(1)
        self.assertEqual({name.upper(): int(number) for number, name in (part.split() for part in line.split(", "))},
                         {member.name: member.value for member in spop.Scope})

    def test_the_others(self):
        self.assertEqual((1, 2), (spop.Flag.FIN, spop.Flag.ABORT))
        self.assertEqual((1, 2), (spop.Action.SET_VAR, spop.Action.UNSET_VAR))
        self.assertEqual((1048576, 16384), (spop.MAX_FRAME, spop.AGREED_FRAME))

    def test_the_text_of_each_number(self):
        self.assertEqual(TEXTS, {int(number): spop.refusal_text(number) for number in spop.Refusal})
        for number in (20, 21, -1, 2**64):
            self.assertEqual("no such number", spop.refusal_text(number))

    def test_all_names_are_there(self):
        for name in spop.__all__:
            self.assertTrue(hasattr(spop, name), name)


class Exceptions(unittest.TestCase):
    def test_refused(self):
        refused = spop.Refused(3, 19)
        self.assertIs(spop.Refusal.TOO_SOON, refused.number)
        self.assertEqual((3, 19, "the bytes end too soon", None, b""),
                         (refused.number, refused.place, refused.text, refused.skip, refused.frame))
        self.assertEqual("3 at 19: the bytes end too soon", str(refused))
        self.assertEqual("20 at 0: no such number", str(spop.Refused(20, 0)))
        self.assertIsInstance(refused, spop.Error)

    def test_incomplete(self):
        self.assertEqual("bytes missing: 7", str(spop.Incomplete(7)))
        self.assertIsInstance(spop.Incomplete(7), spop.Error)

    def test_they_can_be_handed_to_another_process(self):
        refused = spop.Refused(3, 19)
        refused.skip = 23
        copy = pickle.loads(pickle.dumps(refused))
        self.assertEqual((3, 19, "the bytes end too soon", 23), (copy.number, copy.place, copy.text, copy.skip))
        self.assertEqual(7, pickle.loads(pickle.dumps(spop.Incomplete(7))).missing)


if __name__ == "__main__":
    unittest.main()
