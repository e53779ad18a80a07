"""Run by `python3 -m unittest` in bindings/python, on the library that SPOP_LIBRARY names, else the one in SPOP_NATIVE or in
target/native.

unittest imports the packages that it finds in the order of their names, so this one, which says where the library is, comes before
spop.
"""
import os
from pathlib import Path

TOP = Path(__file__).resolve().parents[3]
_built = Path(os.environ.get("SPOP_NATIVE") or TOP / "target/native") / "libspop.so"
if not os.environ.get("SPOP_LIBRARY") and _built.is_file():
    os.environ["SPOP_LIBRARY"] = str(_built)
