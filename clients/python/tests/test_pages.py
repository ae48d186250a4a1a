"""The blocks of Python in README.md and docs/START.md are run, one after the other, on the volume that START makes."""

import os
import re
import unittest

from support import PACKAGE, TOP, InAFolder, run_python


class Pages(InAFolder):
    pages, files = 1020, ("bank=8192",)

    def setUp(self):
        super().setUp()
        os.rename("v.img", "bank.vol")

    def prints(self, page):
        with open(page, encoding="utf-8") as file:
            blocks = re.findall(r"^```python\n(.*?)^```\n", file.read(), flags=re.MULTILINE | re.DOTALL)
        ran = [run_python(block) for block in blocks]
        for ended in ran:
            self.assertEqual((ended.returncode, ended.stderr), (0, ""))
        return [ended.stdout for ended in ran]

    def test_readme(self):
        self.assertEqual(self.prints(f"{PACKAGE}/README.md"), ["", "1 page of 1020\n", "b'hello' 1\n"])

    def test_start(self):
        os.rename("bank.vol", "python.vol")
        numbers = (93).to_bytes(8, "little") + (7).to_bytes(8, "little")
        self.assertEqual(self.prints(f"{TOP}/docs/START.md"), [f"1 {numbers!r}\n"])


if __name__ == "__main__":
    unittest.main()
