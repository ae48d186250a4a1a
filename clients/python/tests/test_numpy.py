"""The sandpile of sandpile.py, an array of NumPy in a file: what a grain sets off is committed or rolled back as a
whole, and after a kill at a random moment nothing of it is there in part."""

import importlib.util
import random
import re
import subprocess
import sys
import time
import unittest

from support import PACKAGE, InAFolder, famsync

KILLS = 8
SANDPILE = [sys.executable, f"{PACKAGE}/sandpile.py", "v.img"]
HAS_NUMPY = importlib.util.find_spec("numpy") is not None
COUNTS = r"(\d+) grains were dropped, (\d+) lie, (\d+) fell off\n"

if HAS_NUMPY:
    import numpy
    import sandpile


@unittest.skipUnless(HAS_NUMPY, "there is no NumPy here")
class Arrays(InAFolder):
    def test_an_array_shares_the_memory(self):
        volume = self.opened()
        memory = volume.memory("a")
        for make in (numpy.asarray, lambda memory: numpy.array(memory, copy=False)):
            array = make(memory)
            self.assertEqual((array.dtype, array.shape, array.flags.writeable), (numpy.uint8, (20000,), True))
            before = memory[19999]
            array[19999] += 1
            self.assertEqual((memory[19999], memory.dirty), (before + 1, 1))
            self.assertRaises(BufferError, memory.close)
            self.assertRaises(BufferError, volume.close)
            part = array[100:].view()
            del array
            self.assertRaises(BufferError, memory.close)
            del part
        copy = numpy.array(memory)
        memory.close()
        self.assertRaises(ValueError, numpy.asarray, memory)
        self.assertEqual(copy[19999], 2)
        with volume.memory("a") as memory:
            memory[0:4] = numpy.array([7, 8], dtype="<u2")
            numpy.add(memory, 1, out=numpy.asarray(memory))
            self.assertEqual(memory[0:4], b"\x08\1\x09\1")
            volume.commit()
        volume.close()
        with famsync.open("v.img", readonly=True) as volume, volume.memory("a") as memory:
            array = numpy.asarray(memory)
            self.assertEqual((array[0], array.flags.writeable), (8, False))
            self.assertRaises(ValueError, array.__setitem__, 0, 1)
            del array


@unittest.skipUnless(HAS_NUMPY, "there is no NumPy here")
class Sandpile(InAFolder):
    files = ("pile=36864",)

    def run_pile(self, *words):
        return subprocess.run([*SANDPILE, *words], capture_output=True, text=True, timeout=120)

    def dropped(self):
        """How many grains were dropped, each of which lies or fell off."""
        with famsync.open("v.img") as volume:
            numbers = numpy.frombuffer(volume.read("pile"), "<i8")
        self.assertEqual(numbers[0], numbers[1] + numbers[512:].sum())
        return numbers[0]

    def killed(self):
        """The last grain that is acknowledged by a process which is killed after a while."""
        with subprocess.Popen(SANDPILE, stdout=subprocess.PIPE, text=True) as pile:
            first = pile.stdout.readline()
            time.sleep(random.uniform(0, 0.1))
            self.assertIsNone(pile.poll(), "it ended by itself")
            pile.kill()
            return int(re.findall(r"^acknowledged (\d+)\n", first + pile.stdout.read(), flags=re.MULTILINE)[-1])

    def test_grains_are_kept(self):
        known = 0
        for _ in range(KILLS):
            known = self.killed()
            self.assertIn(self.dropped(), (known, known + 1))
        self.assertEqual(self.run_pile("20").stdout.count("acknowledged"), 20)
        self.assertGreaterEqual(self.dropped(), known + 20)
        checked = self.run_pile("--check")
        self.assertTrue(re.fullmatch(COUNTS, checked.stdout), checked)
        self.assertEqual(checked.returncode, 0)

    def test_a_large_avalanche_is_rolled_back(self):
        volume = self.opened()
        memory = volume.memory("pile")
        counts = numpy.frombuffer(memory.view(), "<i8", 2)
        pile = numpy.frombuffer(memory.view(), "<i8", 4096, 4096).reshape(64, 64)
        with volume.transaction():
            pile[:] = 3
            counts[0] = pile.sum()
        before = memory[:]
        for _ in range(20):
            self.assertRaises(sandpile.TooLarge, sandpile.drop, volume, pile, counts)
            self.assertEqual((memory[:], memory.dirty, volume.acknowledged), (before, 0, 1))
        pile[:] = 0
        counts[1] = 3 * 4096
        sandpile.drop(volume, pile, counts)
        self.assertEqual((counts[0], pile.sum(), volume.acknowledged), (3 * 4096 + 1, 1, 2))
        del counts, pile

    def test_a_wrong_count_is_reported(self):
        self.run_pile("1")
        with open("v.img", "r+b") as volume:
            volume.seek(-1, 2)
            volume.write(b"\1")
        self.assertEqual(self.run_pile("--check").returncode, 1)


if __name__ == "__main__":
    unittest.main()
