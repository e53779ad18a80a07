"""Prints, in hex, the NOTIFY of an upload: two slots and their residual delays."""
import spop
from spop import I64, U32

upload = ("upload", [("slot", U32(3)), ("delay", I64(1250)), ("slot", U32(17)), ("delay", I64(-730))])
print(spop.write_notify(1, 1, [upload]).hex())
