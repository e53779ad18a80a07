"""Reads frames from standard input to its end, and prints their messages and arguments in order.

A frame that is refused or cut gets a last line, and the status is 1.
"""
import sys
from ipaddress import IPv6Address

import spop


def text_of(value):
    if value is None:
        return "null"
    if isinstance(value, bool):
        return "true" if value else "false"
    if isinstance(value, bytes):
        return value.hex()
    if isinstance(value, IPv6Address) and value.ipv4_mapped:
        return f"::ffff:{value.ipv4_mapped}"    # Python prints it so from 3.13 on
    return str(value)


sys.stdout.reconfigure(encoding="utf-8")
try:
    for frame in spop.frames(sys.stdin.buffer, spop.AGREED_FRAME):
        for message in frame.messages:
            print(message.name)
            for pair in message.arguments:
                print(f"  {pair.key} {text_of(pair.value)}")
except spop.Error as error:
    print("refused:" if isinstance(error, spop.Refused) else "not whole:", error)
    sys.exit(1)
