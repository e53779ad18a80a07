"""Builds the wheel of the package spop, as pip asks for it (PEP 517 and PEP 660). It holds the module and the shared library.

The library is the file that SPOP_LIBRARY names, else target/native/libspop.so of the repository, else spop/libspop.so of this
folder. The same files give the same wheel, byte for byte.
"""
import base64
import hashlib
import os
import re
import struct
import zipfile
from pathlib import Path

HERE = Path(__file__).resolve().parent.parent
MODULE = HERE / "spop"
SOURCES = ("__init__.py", "_calls.py", "py.typed")
MACHINES = {62: "x86_64", 183: "aarch64"}    # by their numbers in an ELF file


class UnsupportedOperation(Exception):
    """What pip expects where there is no source archive."""


def build_wheel(wheel_directory, config_settings=None, metadata_directory=None):
    library = find_library()
    files = {f"spop/{name}": (MODULE / name).read_bytes() for name in SOURCES}
    files["spop/libspop.so"] = library.read_bytes()
    return write_wheel(wheel_directory, files, library)


def build_editable(wheel_directory, config_settings=None, metadata_directory=None):
    """The module stays where it is, and the library is linked beside it."""
    library = find_library()
    beside = MODULE / "libspop.so"
    if library != beside:
        if beside.exists() and not beside.is_symlink():
            stop(f"{beside} is in the way: it would be replaced by a link to {library}")
        beside.unlink() if beside.is_symlink() else None
        beside.symlink_to(library)
    return write_wheel(wheel_directory, {"spop.pth": f"{HERE}\n".encode()}, library)


def build_sdist(sdist_directory, config_settings=None):
    raise UnsupportedOperation("there is no source archive of the package: it is built from its repository")


def stop(line):
    """pip shows the line, without a traceback above it."""
    raise SystemExit(f"spop: {line}")


def find_library():
    named = os.environ.get("SPOP_LIBRARY")
    places = [Path(named).absolute()] if named else [HERE.parent.parent / "target/native/libspop.so", MODULE / "libspop.so"]
    for place in places:
        if place.is_file():
            return place
    tried = f"SPOP_LIBRARY names {named}, which is no file" if named else f"there is neither {places[0]} nor {places[1]}"
    stop(f"the library is not built: {tried} (tools/native-lib spop builds it; SPOP_LIBRARY names another)")


def machine_of(library):
    """The processor that the library is for, from its ELF header: a 64-bit shared object of Linux."""
    head = library.read_bytes()[:20]
    if len(head) == 20 and head[:6] == b"\x7fELF\x02\x01":
        kind, machine = struct.unpack("<HH", head[16:])
        if kind == 3 and machine in MACHINES:
            return MACHINES[machine]
    return stop(f"{library} is no shared library for {' or '.join(MACHINES.values())}")


def find_notice():
    """It goes with the library wherever that goes."""
    for folder in (HERE, HERE.parent, HERE.parent.parent):
        if (folder / "NOTICE").is_file():
            return folder / "NOTICE"
    return stop(f"NOTICE is neither in {HERE} nor in the two folders above it, and has to go with the library")


def version():
    return re.search(r'^__version__ = "([^"]+)"$', (MODULE / "__init__.py").read_text("utf-8"), re.M).group(1)


def metadata():
    lines = ["Metadata-Version: 2.1", "Name: spop", f"Version: {version()}",
             "Summary: Frames between HAProxy and its agents, read and written by a proved library",
             "Requires-Python: >=3.9", "Description-Content-Type: text/markdown", "", ""]
    return "\n".join(lines).encode() + (HERE / "README.md").read_bytes()


def write_wheel(folder, files, library):
    """Writes the files with what a wheel needs beside them, and answers the wheel's name."""
    tag = f"py3-none-linux_{machine_of(library)}"
    info = f"spop-{version()}.dist-info"
    files = dict(files)
    files[f"{info}/METADATA"] = metadata()
    files[f"{info}/WHEEL"] = f"Wheel-Version: 1.0\nGenerator: build_spop\nRoot-Is-Purelib: false\nTag: {tag}\n".encode()
    files[f"{info}/licenses/NOTICE"] = find_notice().read_bytes()
    files[f"{info}/RECORD"] = record(files, f"{info}/RECORD")
    name = f"spop-{version()}-{tag}.whl"
    with zipfile.ZipFile(Path(folder) / name, "w") as wheel:
        for path, content in files.items():
            wheel.writestr(entry(path), content)
    return name


def record(files, own_path):
    lines = []
    for path, content in files.items():
        digest = base64.urlsafe_b64encode(hashlib.sha256(content).digest()).rstrip(b"=").decode()
        lines.append(f"{path},sha256={digest},{len(content)}\n")
    return "".join(lines + [f"{own_path},,\n"]).encode()


def entry(path):
    """With a date that is always the same."""
    item = zipfile.ZipInfo(path, (1980, 1, 1, 0, 0, 0))
    item.compress_type = zipfile.ZIP_DEFLATED
    item.create_system = 3
    item.external_attr = (0o100755 if path.endswith(".so") else 0o100644) << 16
    return item
