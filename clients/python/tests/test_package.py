"""How the package is found and finds the library, its version and its types."""

import os
import re
import shutil
import subprocess
import sys
import tempfile
import unittest

from support import PACKAGE, TOP, InAFolder, famsync, run_python

TRY = "import famsync\nprint(famsync.open('v.img').commit())"


def place_of_library():
    """The file of the library that this process has loaded."""
    with open("/proc/self/maps", encoding="utf-8") as maps:
        return next(line.split()[-1] for line in maps if "libfamsync" in line)


class Library(InAFolder):
    def setUp(self):
        super().setUp()
        self.library = place_of_library()
        os.makedirs("elsewhere")
        shutil.copytree(f"{PACKAGE}/famsync", "copy/famsync", ignore=shutil.ignore_patterns("lib*", "__pycache__"))

    def tries(self, **environment):
        """What a copy of the package does that has no library beside it but what a test puts there."""
        wanted = {"FAMSYNC_LIBRARY": "", "LD_LIBRARY_PATH": "", "PYTHONPATH": "copy", **environment}
        ended = run_python(TRY, environment=wanted)
        return ended.stdout if ended.returncode == 0 else ended.stderr.splitlines()[-1]

    def test_the_one_that_is_named(self):
        self.assertEqual(self.tries(FAMSYNC_LIBRARY=self.library), "1\n")

    def test_the_one_beside_the_package(self):
        shutil.copy(self.library, "copy/famsync/libfamsync.so.1")
        self.assertEqual(self.tries(), "1\n")

    def test_the_one_that_the_system_finds(self):
        shutil.copy(self.library, "elsewhere/libfamsync.so.1")
        self.assertEqual(self.tries(LD_LIBRARY_PATH=os.path.abspath("elsewhere")), "1\n")

    def test_the_order(self):
        shutil.copy(self.library, "elsewhere/libfamsync.so.1")
        found = {"LD_LIBRARY_PATH": os.path.abspath("elsewhere")}
        with open("copy/famsync/libfamsync.so.1", "wb") as file:
            file.write(b"no library")
        self.assertIn("copy/famsync/libfamsync.so.1", self.tries(**found))
        self.assertIn("named.so", self.tries(FAMSYNC_LIBRARY="/nowhere/named.so", **found))

    def test_what_is_said_where_there_is_none(self):
        for said in (self.tries(FAMSYNC_LIBRARY="/nowhere/named.so"), self.tries(FAMSYNC_LIBRARY="libc.so.6")):
            self.assertRegex(said, "^ImportError: famsync: .*FAMSYNC_LIBRARY")


class Package(unittest.TestCase):
    def test_the_version_of_the_library(self):
        self.assertEqual(famsync.version().removesuffix(" (core not proved)"), famsync.__version__)

    def test_one_version(self):
        with open(f"{TOP}/VERSION", encoding="ascii") as file:
            version = file.read().strip()
        with open(f"{PACKAGE}/pyproject.toml", encoding="utf-8") as file:
            self.assertEqual(re.findall(r'^version = "(.*)"$', file.read(), flags=re.MULTILINE), [version])
        self.assertEqual(famsync.__version__, version)

    def test_each_name_is_there(self):
        self.assertEqual(famsync.__all__, sorted(famsync.__all__))
        for name in famsync.__all__:
            self.assertTrue(getattr(famsync, name).__doc__)

    def test_types(self):
        with tempfile.TemporaryDirectory(prefix="famsync-") as cache:
            words = [sys.executable, "-m", "mypy", "--strict", "--cache-dir", cache, "famsync", "bank.py"]
            checked = subprocess.run(words, cwd=PACKAGE, capture_output=True, text=True)
        if "No module named mypy" in checked.stderr:
            self.skipTest("there is no mypy here")
        self.assertEqual(checked.returncode, 0, checked.stdout + checked.stderr)


if __name__ == "__main__":
    unittest.main()
