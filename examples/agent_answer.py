"""Prints, in hex, what an agent answers: its AGENT-HELLO, and the ACK that sets four variables."""
import spop
from spop import I64, U32, Scope, SetVar

print(spop.write_hello(16384, version="2.0", capabilities="").hex())
print(spop.write_ack(1, 1, [
    SetVar(Scope.TRANSACTION, "slot0", U32(3)),
    SetVar(Scope.TRANSACTION, "delay0", I64(1250)),
    SetVar(Scope.TRANSACTION, "slot1", U32(17)),
    SetVar(Scope.TRANSACTION, "delay1", I64(-730)),
]).hex())
