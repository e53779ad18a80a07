"""The program of README.md, run as it stands there."""
import os
import re
import subprocess
import sys
import textwrap
import unittest
from pathlib import Path

import spop

from . import TOP, plain

README = (TOP / "bindings/python/README.md").read_text("utf-8")


def shown(stream_id, values):
    """What it prints for an upload, whose values are slots and delays in turn."""
    lines = [f"upload {'delay' if index % 2 else 'slot'} {value}" for index, value in enumerate(values)]
    actions = [plain.set_var(2, b"value%d" % index, 4 if index % 2 else 3, value) for index, value in enumerate(values)]
    return "\n".join([*lines, plain.frame(103, stream_id, 1, *actions).hex(), ""])


class Readme(unittest.TestCase):
    def test_the_program(self):
        section = README.split("\n## Read an upload and answer it\n")[1].split("\n## ")[0]
        program = textwrap.dedent("\n".join(re.findall(r"^(?:    .*|)$", section, re.M)))
        self.assertIn("import sys, spop", program)
        environment = {**os.environ, "PYTHONPATH": str(Path(spop.__file__).parent.parent), "SPOP_LIBRARY": spop._lib._name}
        with open(TOP / "examples/uploads.bin", "rb") as uploads:
            run = subprocess.run([sys.executable, "-c", program], stdin=uploads, env=environment, capture_output=True, text=True)
        self.assertEqual((shown(1, [3, 1250, 17, -980]) + shown(2, [0, 0, 27, -9000000000]), "", 0),
                         (run.stdout, run.stderr, run.returncode))

    def test_every_name_that_it_speaks_of_is_there(self):
        for name in set(re.findall(r"\bspop\.([A-Za-z_]\w*)", README)) - {"so"}:
            self.assertTrue(hasattr(spop, name), name)
        for call in re.findall(r"`(\w+)\(", README):
            self.assertTrue(hasattr(spop, call) or call in ("recv", "read", "next"), call)


if __name__ == "__main__":
    unittest.main()
