"""The table of calls, the loading, and what can be had from the C names alone."""
import os
import re
import shutil
import subprocess
import sys
import tempfile
import unittest
from ctypes import POINTER, ArgumentError, c_bool, c_char_p, c_size_t, c_uint8, c_uint32, c_uint64
from pathlib import Path

import spop
from spop import _calls

from . import TOP
from .test_read import UPLOAD

PACKAGE = Path(spop.__file__).parent
HEADER = (TOP / "include/spop.h").read_text("utf-8")


TYPES = {
    "bool": c_bool, "uint32_t": c_uint32, "uint64_t": c_uint64, "size_t": c_size_t, "const uint8_t *": c_char_p,
    "uint8_t *": POINTER(c_uint8), "uint64_t *": POINTER(c_uint64), "const uint64_t *": POINTER(c_uint64),
    "bool *": POINTER(c_bool), "struct spop_pair *": POINTER(_calls.spop_pair),
}


def prototypes():
    """Each call of the header: its name, what it answers, and its parameters' names and types."""
    code = re.sub(r"/\*.*?\*/", "", HEADER, flags=re.S)
    widths = dict(re.findall(r"(SPOP_\w+_WIDTH)\s*=?\s*(\d+)", code))
    for answer, name, parameters in re.findall(r"^(uint64_t|bool) (spop_\w+)\(([^)]*)\);", code, re.M):
        yield name, (TYPES[answer], [parameter(text.strip(), widths) for text in parameters.split(",")])


def parameter(text, widths):
    kind, name, array = re.fullmatch(r"(.*?)(\w+)(?:\[(\w+)\])?", text, re.S).groups()
    return name, POINTER(c_uint64 * int(widths.get(array, array))) if array else TYPES[kind.strip()]


class Table(unittest.TestCase):
    def test_it_has_each_call_of_the_header_with_its_parameters_in_order(self):
        found = list(prototypes())
        self.assertTrue(found)
        self.assertEqual(found, list(_calls.CALLS.items()))

    def test_the_pair_by_name(self):
        fields = re.search(r"struct spop_pair \{(.*?)\}", HEADER, re.S).group(1)
        self.assertEqual([(name, c_uint64) for name in re.findall(r"uint64_t (\w+);", fields)], _calls.spop_pair._fields_)

    def test_a_table_of_another_width_is_no_argument(self):
        at = c_uint64()
        with self.assertRaises(ArgumentError):
            spop._lib.spop_typed_data(b"\0", 1, (c_uint64 * 6)(), at)
        with self.assertRaises(ArgumentError):
            spop._lib.spop_read_pair(b"\0\0", 2, (c_uint64 * 4)(), at)


class Refusals(unittest.TestCase):
    """Those that the module never gets, since it lends enough room and makes the records itself."""

    def setUp(self):
        self.at, self.out = c_uint64(77), (c_uint8 * 8)(*8 * [0xAA])

    def test_no_room(self):
        self.assertEqual(11, spop._lib.spop_encode_varint(240, self.out, 1, self.at))
        self.assert_untouched(0)
        self.assertEqual(11, spop._lib.spop_lossy_text(b"\xff", 1, self.out, 2, self.at))
        self.assert_untouched(0)
        self.assertEqual(11, spop._lib.spop_write_value((c_uint64 * 4)(3, 240, 0, 0), b"", 0, self.out, 2, self.at))
        self.assert_untouched(0)
        none = (c_uint64 * 8)()
        self.assertEqual(11, spop._lib.spop_write_actions(True, False, 0, 0, 99, b"", 0, none, 0, 0, self.out, 8, self.at))
        self.assert_untouched(0)

    def test_outside(self):
        self.assertEqual(16, spop._lib.spop_check_value((c_uint64 * 4)(8, 1, 1, 0), b"a", 1))
        self.assertEqual(16, spop._lib.spop_write_value((c_uint64 * 4)(9, 0, 2, 0), b"a", 1, self.out, 8, self.at))
        self.assert_untouched(0)
        pairs = (c_uint64 * 12)(0, 1, 0, 0, 0, 0, 1, 1, 0, 0, 0, 0)
        self.assertEqual(16, spop._lib.spop_write_kv(1, True, False, 0, 0, 99, b"a", 1, pairs, 12, 2, self.out, 8, self.at))
        self.assert_untouched(1)
        self.assertEqual(16, spop._lib.spop_write_kv(1, True, False, 0, 0, 99, b"a", 1, pairs, 11, 2, self.out, 8, self.at))
        self.assert_untouched(0)

    def test_runs_of_arguments(self):
        message, pair = (c_uint64 * 4)(0, 0, 1, 0), (c_uint64 * 6)()
        self.assertEqual(14, spop._lib.spop_write_notify(True, False, 0, 0, 99, b"", 0, message, 4, 1, pair, 6, 1, self.out, 8,
                                                         self.at))
        self.assert_untouched(0)

    def assert_untouched(self, place):
        self.assertEqual((place, 8 * [0xAA]), (self.at.value, self.out[:]))


class Loading(unittest.TestCase):
    def setUp(self):
        folder = tempfile.TemporaryDirectory()
        self.addCleanup(folder.cleanup)
        self.folder, self.library = Path(folder.name).resolve(), Path(spop._lib._name).resolve()
        shutil.copytree(PACKAGE, self.folder / "spop", ignore=shutil.ignore_patterns("__pycache__", "libspop.so"))

    def imported(self, **environment):
        """Imports the copied module, and answers where its library is, or the error's last line."""
        environment.update(PATH=os.environ["PATH"], PYTHONDONTWRITEBYTECODE="1")
        run = subprocess.run([sys.executable, "-c", "import spop; print(spop._lib._name, spop.varint_len(240))"], cwd=self.folder,
                             env=environment, capture_output=True, text=True)
        return (run.stdout or run.stderr).strip().split("\n")[-1]

    def test_the_one_that_is_named(self):
        self.assertEqual(f"{self.library} 2", self.imported(SPOP_LIBRARY=str(self.library)))

    def test_a_name_without_a_folder_is_a_file_of_this_one(self):
        shutil.copy(self.library, self.folder / "mine.so")
        self.assertEqual(f"{self.folder}/mine.so 2", self.imported(SPOP_LIBRARY="mine.so"))

    def test_the_one_beside_the_module(self):
        shutil.copy(self.library, self.folder / "spop/libspop.so")
        for environment in ({}, {"SPOP_LIBRARY": ""}):
            self.assertEqual(f"{self.folder}/spop/libspop.so 2", self.imported(**environment))

    def test_the_one_of_the_system(self):
        shutil.copy(self.library, self.folder / "libspop.so.0")
        self.assertEqual("libspop.so.0 2", self.imported(LD_LIBRARY_PATH=str(self.folder)))

    def test_none(self):
        said = self.imported(LD_LIBRARY_PATH=str(self.folder))
        self.assertRegex(said, r"^ImportError: spop: the library libspop\.so\.0 cannot be used \(SPOP_LIBRARY is not set, and there"
                               rf" is no {self.folder}/spop/libspop\.so\): .*No such file")

    def test_the_named_one_is_not_there(self):
        shutil.copy(self.library, self.folder / "spop/libspop.so")
        self.assertRegex(self.imported(SPOP_LIBRARY="/none.so"),
                         r"^ImportError: spop: the library /none\.so cannot be used \(SPOP_LIBRARY names it\): .*No such file")

    def test_another_library_and_no_library(self):
        other = re.search(r"/\S*/libc[.-]\S*so\S*", Path("/proc/self/maps").read_text()).group()
        self.assertRegex(self.imported(SPOP_LIBRARY=other),
                         rf"^ImportError: spop: the library {re.escape(other)} .*spop_varint_len")
        (self.folder / "spop/libspop.so").write_text("text")
        self.assertRegex(self.imported(), r"^ImportError: spop: the library .*it stands beside the module")


class Answers(unittest.TestCase):
    def test_the_module_calls_this_library(self):
        head, at = (c_uint64 * 6)(), c_uint64()
        messages, pairs = (c_uint64 * 4)(), (c_uint64 * 24)()
        self.assertEqual(0, spop._lib.spop_read_frame(UPLOAD, len(UPLOAD), 55, messages, 4, pairs, 24, head, at))
        self.assertEqual(([3, 1, 1, 1, 1, 4], 59, [12, 6, 0, 4]), (head[:], at.value, messages[:]))


if __name__ == "__main__":
    unittest.main()
