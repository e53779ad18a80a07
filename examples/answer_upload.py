"""Reads NOTIFY frames from standard input, and prints for each, in hex, the ACK that sets a variable for every argument."""
import sys
from collections import Counter

import spop


def answer(frame):
    met, actions = Counter(), []
    for pair in frame.pairs:
        key = pair.key.raw    # the bytes as they stand: what is not UTF-8 is refused, and not replaced
        actions.append(spop.SetVar(spop.Scope.TRANSACTION, key + b"%d" % met[key], pair.typed))
        met[key] += 1
    return spop.write_ack(frame.stream_id, frame.frame_id, actions)


try:
    for frame in spop.frames(sys.stdin.buffer, spop.AGREED_FRAME):
        if frame.type == spop.FrameType.NOTIFY:
            print(answer(frame).hex())
except spop.Error as error:
    print("refused:" if isinstance(error, spop.Refused) else "not whole:", error)
    sys.exit(1)
