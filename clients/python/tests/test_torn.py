"""Sessions that commit nothing before a rollback (`Torn`): a commit was refused memory after it had taken a part of the
stores, and the memory with the rest was closed. The next session finds what was committed before."""

import unittest

from support import PAGE, InAFolder, famsync, make_volume, run_python

PAGES = 1500
LENGTH = PAGES * PAGE

# A process of its own, which has no memory left over: it stores to all pages, and the commit gets memory for a part.
REFUSED = f"""
import os, resource, sys, famsync

def refused(call):
    limits = resource.getrlimit(resource.RLIMIT_AS)
    with open("/proc/self/statm") as file:
        pages = int(file.read().split()[0])
    resource.setrlimit(resource.RLIMIT_AS, (pages * os.sysconf("SC_PAGESIZE") + (1 << 20), limits[1]))
    try:
        call()
    except famsync.NoMemory:
        print("refused")
    finally:
        resource.setrlimit(resource.RLIMIT_AS, limits)

def torn(call, *words):
    try:
        call(*words)
    except famsync.Torn:
        print("torn")

volume = famsync.open("large.img", foreground=True)
memory = volume.memory("a")
memory[:] = bytes([1]) * {LENGTH}
refused(volume.commit)
"""


class Torn(InAFolder):
    def setUp(self):
        super().setUp()
        make_volume("large.img", PAGES + 1, f"a={LENGTH}", "b=5000")

    def after(self, lines):
        """What a process prints that makes these calls after the refused one, and what the next session finds."""
        ran = run_python(REFUSED + lines)
        self.assertEqual((ran.returncode, ran.stderr), (0, ""))
        with famsync.open("large.img") as volume:
            found = [volume.read(*place, 1)[0] for place in (("a", 0), ("a", LENGTH - 1), ("b", 0))]
        return ran.stdout.split(), found

    def test_memory_is_closed(self):
        calls = """
memory.close()
torn(volume.commit)
volume.write("b", 0, b"x")
torn(volume.commit)
volume.close()
"""
        self.assertEqual(self.after(calls), (["refused", "torn", "torn"], [0, 0, 0]))

    def test_a_rollback_follows(self):
        calls = """
memory.close()
torn(volume.commit)
volume.rollback()
volume.write("b", 0, b"x")
volume.commit()
volume.close()
"""
        self.assertEqual(self.after(calls), (["refused", "torn"], [0, 0, ord("x")]))

    def test_memory_stays_open(self):
        self.assertEqual(self.after("volume.commit()\nmemory.close()\nvolume.close()\n"), (["refused"], [1, 1, 0]))


if __name__ == "__main__":
    unittest.main()
