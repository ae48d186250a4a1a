"""An interrupt at any step of the package: nothing is left open that nobody has, and what was interrupted can be done
again.

Of the steps some are tried, at random; with STEPS=all in the environment, each.
"""

import gc
import os
import random
import sys
import tempfile
import unittest

from support import PACKAGE, InAFolder, famsync

FOLDER = os.path.join(PACKAGE, "famsync")


class Interrupt:
    """Raises KeyboardInterrupt at one step of the package's code, counted from 0, as the handler of a signal does."""

    def __init__(self, step):
        self.left, self.came, self.quiet = step, False, sys.unraisablehook

    def __enter__(self):
        sys.unraisablehook = lambda raised: None  # in a __del__
        sys.settrace(self.trace)

    def __exit__(self, kind, value, trace):
        sys.settrace(None)
        sys.unraisablehook = self.quiet
        return kind is KeyboardInterrupt

    def trace(self, frame, event, argument):
        if os.path.dirname(frame.f_code.co_filename) != FOLDER or self.came:
            return None
        frame.f_trace_opcodes = True
        if event in ("call", "opcode"):
            self.left -= 1
            if self.left < 0:
                self.came = True
                raise KeyboardInterrupt
        return self.trace


class Interrupts(InAFolder):
    def setUp(self):
        super().setUp()
        if os.path.isdir("/dev/shm"):  # where no sync takes time
            folder = tempfile.TemporaryDirectory(prefix="famsync-", dir="/dev/shm")
            self.addCleanup(folder.cleanup)
            os.chdir(folder.name)
            self.make(self.pages, *self.files)

    def at_steps(self, begin, interrupted, after, stride=20):
        """Lets an interrupt come at steps of a work in turn, until it is over before one comes."""
        stride = 1 if os.environ.get("STEPS") == "all" else stride
        step, came = 0, True
        while came:
            held = begin()
            interrupt = Interrupt(step)
            with interrupt:
                interrupted(held)
            came, step = interrupt.came, step + random.randint(1, 2 * stride - 1)
            with self.subTest(step=step):
                after(held)
            held.clear()
            gc.collect()
            famsync.open("v.img").close()
        self.assertGreater(step, 5)

    def begin(self):
        volume = famsync.open("v.img", foreground=True)
        return {"volume": volume, "memory": volume.memory("a")}

    def closes(self, held):
        """The volume can be used, and then closed."""
        with held["volume"] as volume:
            held.pop("memory", None)
            volume.memory("a")[0] = 1
            volume.commit()

    def is_closed(self, held):
        held["volume"].close()
        self.assertRaises(ValueError, held["volume"].commit)

    def test_a_memory_that_is_dropped(self):
        self.at_steps(self.begin, lambda held: held.pop("memory"), self.closes, stride=1)

    def test_a_memory_that_is_closed(self):
        self.at_steps(self.begin, lambda held: held["memory"].close(), lambda held: held["memory"].close())

    def test_a_memory_that_is_opened(self):
        self.at_steps(
            lambda: {"volume": famsync.open("v.img", foreground=True)},
            lambda held: held["volume"].memory("a"),
            self.closes,
        )

    def test_a_volume_that_is_closed(self):
        self.at_steps(self.begin, lambda held: held["volume"].close(), self.is_closed)

    def test_a_volume_that_is_dropped(self):
        self.at_steps(self.begin, lambda held: held.clear(), lambda held: None)

    def test_a_volume_that_is_opened(self):
        self.at_steps(dict, lambda held: famsync.open("v.img", foreground=True), lambda held: None)

    def test_a_commit(self):
        self.at_steps(self.begin, lambda held: held["volume"].commit(), self.closes)

    def test_a_group(self):
        def change(held):
            with held["volume"].group():
                held["memory"][0] = 1

        self.at_steps(self.begin, change, self.closes, stride=1)


if __name__ == "__main__":
    unittest.main()
