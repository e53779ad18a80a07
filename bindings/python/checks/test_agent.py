"""What agents send, read: what the writers made reads back, and refusals."""
import unittest

import spop


def with_length(frame):
    return len(frame).to_bytes(4, "big") + frame


HEAD = b"\x67\0\0\0\1\1\2"


class Agent(unittest.TestCase):
    def test_an_ack_reads_back(self):
        actions = [spop.SetVar(spop.Scope.TRANSACTION, "err", spop.Value(7, spop.Kind.U32, 5)), spop.UnsetVar(spop.Scope.REQUEST, "old"),
                   spop.SetVar(spop.Scope.PROCESS, "", spop.Value("text", spop.Kind.STRING))]
        data = spop.write_ack(1, 2, actions)
        frame = spop.read_agent_frame(data + b"behind")
        self.assertEqual((spop.FrameType.ACK, 1, 1, 2, len(data), []), frame[:6])
        self.assertEqual(actions, frame.actions)
        self.assertEqual(data, spop.write_ack(1, 2, frame.actions))

    def test_kv_lists_read_back(self):
        pairs = [("max-frame-size", spop.U32(16384)), ("version", "2.0")]
        for type in (spop.FrameType.AGENT_HELLO, spop.FrameType.AGENT_DISCONNECT):
            frame = spop.read_agent_frame(spop.write_kv(type, pairs))
            self.assertEqual((type, []), (frame.type, frame.actions))
            self.assertEqual(pairs, [(pair.key, pair.value) for pair in frame.pairs])

    def test_refusals(self):
        for payload, number, place in ((b"\0", 18, 12), (b"\3", 18, 12), (b"\1", 3, 12), (b"\1\2", 18, 13), (b"\2\3", 18, 13),
                                       (b"\1\3", 3, 13), (b"\1\3\5", 18, 14), (b"\2\2\4", 3, 14), (b"\2\2\4\2a", 3, 15),
                                       (b"\1\3\0\1a\x0a", 8, 17)):
            with self.subTest(payload=payload), self.assertRaises(spop.Refused) as caught:
                spop.read_agent_frame(with_length(HEAD + payload))
            self.assertEqual((number, place), (caught.exception.number, caught.exception.place))

    def test_room_is_asked_behind_the_action(self):
        data = spop.write_ack(1, 2, 2 * [spop.UnsetVar(0, "a")])
        self.assertEqual(2, len(spop.read_agent_frame(data, max_actions=2).actions))
        with self.assertRaises(spop.Refused) as caught:
            spop.read_agent_frame(data, max_actions=1)
        self.assertEqual((10, len(data)), (caught.exception.number, caught.exception.place))

    def test_each_entry_reads_its_own(self):
        ack, notify = spop.write_ack(1, 2, []), spop.write_notify(1, 2, [])
        for call, data in ((spop.read_agent_frame, notify), (spop.read_frame, ack)):
            with self.assertRaises(spop.Refused) as caught:
                call(data)
            self.assertEqual((6, 4), (caught.exception.number, caught.exception.place))

    def test_a_wait(self):
        data = spop.write_ack(1, 2, [spop.UnsetVar(0, "a")])
        with self.assertRaises(spop.Incomplete) as caught:
            spop.read_agent_frame(data[:-3])
        self.assertEqual(3, caught.exception.missing)
