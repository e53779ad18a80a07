"""The wheel, as the backend makes it."""
import base64
import contextlib
import hashlib
import importlib.util
import os
import shutil
import subprocess
import sys
import tempfile
import unittest
import zipfile
from pathlib import Path
from unittest import mock

import spop

from . import TOP

LIBRARY = Path(spop._lib._name).resolve()
HERE = TOP / "bindings/python"


def backend_of(folder):
    spec = importlib.util.spec_from_file_location("build_spop", folder / "backend/build_spop.py")
    module = importlib.util.module_from_spec(spec)
    with mock.patch.object(sys, "dont_write_bytecode", True):
        spec.loader.exec_module(module)
    return module


@contextlib.contextmanager
def named(library):
    """With SPOP_LIBRARY so, or not at all."""
    with mock.patch.dict(os.environ):
        os.environ.pop("SPOP_LIBRARY", None)
        if library is not None:
            os.environ["SPOP_LIBRARY"] = str(library)
        yield


class Package(unittest.TestCase):
    def setUp(self):
        folder = tempfile.TemporaryDirectory()
        self.addCleanup(folder.cleanup)
        self.folder = Path(folder.name).resolve()
        self.tree = self.folder / "tree"
        shutil.copytree(HERE, self.tree / "bindings/python", ignore=shutil.ignore_patterns("__pycache__", "libspop.so"))
        shutil.copy(TOP / "NOTICE", self.tree)
        self.backend = backend_of(self.tree / "bindings/python")

    def build(self, library=LIBRARY, how="build_wheel"):
        with named(library):
            return self.folder / getattr(self.backend, how)(str(self.folder))

    def imported(self, path):
        environment = {"PATH": os.environ["PATH"], "PYTHONDONTWRITEBYTECODE": "1", "PYTHONPATH": str(path)}
        run = subprocess.run([sys.executable, "-c", "import spop; print(spop.__file__, spop.encode_varint(2288).hex())"], cwd="/",
                             env=environment, capture_output=True, text=True)
        return run.stdout.split() or run.stderr

    def test_what_is_in_it(self):
        wheel = self.build()
        self.assertRegex(wheel.name, rf"^spop-{spop.__version__}-py3-none-linux_(x86_64|aarch64)\.whl$")
        with zipfile.ZipFile(wheel) as files:
            info = f"spop-{spop.__version__}.dist-info"
            self.assertEqual(["spop/__init__.py", "spop/_calls.py", "spop/py.typed", "spop/libspop.so", f"{info}/METADATA",
                              f"{info}/WHEEL", f"{info}/licenses/NOTICE", f"{info}/RECORD"], files.namelist())
            self.assertEqual(LIBRARY.read_bytes(), files.read("spop/libspop.so"))
            self.assertEqual((TOP / "NOTICE").read_bytes(), files.read(f"{info}/licenses/NOTICE"))
            self.assertIn(f"Name: spop\nVersion: {spop.__version__}\n", files.read(f"{info}/METADATA").decode())
            self.assertIn(f"Tag: {wheel.stem.split('-', 2)[2]}\n", files.read(f"{info}/WHEEL").decode())
            self.assert_record(files, f"{info}/RECORD")

    def assert_record(self, files, path):
        lines = [line.rsplit(",", 2) for line in files.read(path).decode().splitlines()]
        self.assertEqual(files.namelist(), [name for name, _, _ in lines])
        for name, digest, size in lines[:-1]:
            content = files.read(name)
            self.assertEqual(int(size), len(content))
            self.assertEqual(hashlib.sha256(content).digest(), base64.urlsafe_b64decode(digest[len("sha256="):] + "="))
        self.assertEqual([path, "", ""], lines[-1])

    def test_every_source_is_in_it(self):
        there = {path.name for path in (HERE / "spop").iterdir()} - {"__pycache__", "libspop.so"}
        self.assertEqual(there, set(self.backend.SOURCES))

    def test_it_runs_where_it_is_unpacked(self):
        with zipfile.ZipFile(self.build()) as files:
            files.extractall(self.folder / "there")
        self.assertEqual([str(self.folder / "there/spop/__init__.py"), "f08000"], self.imported(self.folder / "there"))

    def test_twice_it_is_the_same(self):
        first = self.build().read_bytes()
        os.utime(self.tree / "bindings/python/spop/__init__.py", (0, 10**9))
        self.assertEqual(first, self.build().read_bytes())

    def test_where_the_library_is_found(self):
        built = self.tree / "target/native/libspop.so"
        beside = self.tree / "bindings/python/spop/libspop.so"
        shutil.copy(LIBRARY, beside)
        with named(None):
            self.assertEqual(beside, self.backend.find_library())
            built.parent.mkdir(parents=True)
            shutil.copy(LIBRARY, built)
            self.assertEqual(built, self.backend.find_library())
        with named(LIBRARY):
            self.assertEqual(LIBRARY, self.backend.find_library())

    def test_a_library_for_another_processor(self):
        other = self.folder / "libspop.so"
        content = bytearray(LIBRARY.read_bytes())
        content[18:20] = b"\xb7\0"
        other.write_bytes(content)
        self.assertRegex(self.build(other).name, r"linux_aarch64\.whl$")

    def test_the_library_is_not_built(self):
        with self.assertRaisesRegex(SystemExit, r"^spop: the library is not built: there is neither .*/native/libspop\.so nor "):
            self.build(None)
        with self.assertRaisesRegex(SystemExit, r"SPOP_LIBRARY names /none\.so, which is no file"):
            self.build("/none.so")

    def test_what_is_no_shared_library(self):
        other = self.folder / "libspop.a"
        head = LIBRARY.read_bytes()[:20]
        # An archive, a file that is cut, a 32-bit one, an object that is not shared, and another processor's.
        for content in (b"", b"!<arch>\n" + bytes(100), head[:19], head[:4] + b"\1" + head[5:], head[:16] + b"\1" + head[17:],
                        head[:18] + b"\3\0"):
            other.write_bytes(content)
            with self.assertRaisesRegex(SystemExit, "is no shared library for x86_64 or aarch64"):
                self.build(other)

    def test_without_its_notice(self):
        (self.tree / "NOTICE").unlink()
        with self.assertRaisesRegex(SystemExit, "NOTICE"):
            self.build()
        shutil.copy(TOP / "NOTICE", self.tree / "bindings/python")
        self.build()

    def test_editable(self):
        module = self.tree / "bindings/python"
        for _ in range(2):
            with zipfile.ZipFile(self.build(how="build_editable")) as files:
                self.assertEqual(f"{module}\n", files.read("spop.pth").decode())
            self.assertEqual(LIBRARY, (module / "spop/libspop.so").resolve())
        self.assertEqual([str(module / "spop/__init__.py"), "f08000"], self.imported(module))

    def test_editable_replaces_no_library(self):
        beside = self.tree / "bindings/python/spop/libspop.so"
        beside.write_bytes(b"mine")
        with self.assertRaisesRegex(SystemExit, "is in the way"):
            self.build(how="build_editable")
        self.assertEqual(b"mine", beside.read_bytes())

    def test_there_is_no_source_archive(self):
        with self.assertRaises(self.backend.UnsupportedOperation):
            self.backend.build_sdist(str(self.folder))


if __name__ == "__main__":
    unittest.main()
