"""How a session begins and ends."""

import copy
import gc
import inspect
import os
import pathlib
import pickle
import sys
import threading
import time
import unittest
from unittest import mock

from support import InAFolder, famsync, run_python
from famsync import _memory, _volume
from famsync._library import library


class Begins(InAFolder):
    def test_what_a_volume_has(self):
        with famsync.open("v.img") as volume:
            self.assertEqual(volume.files, {"a": 20000, "b": 5000})
            self.assertEqual((volume.frames, volume.acknowledged), (16, 0))
            self.assertIn("v.img", repr(volume))

    def test_each_kind_of_path(self):
        os.symlink("v.img", "link")
        for path in ("v.img", b"v.img", pathlib.Path("v.img"), os.path.abspath("v.img"), "link"):
            with famsync.open(path) as volume:
                self.assertEqual(volume.commit(), 1)

    def test_options(self):
        for copies in (0, 2, 65):
            with famsync.open("v.img", frames=3, copies=copies, foreground=True) as volume:
                self.assertEqual(volume.frames, 3)
        with self.assertRaises(famsync.BadShape):
            famsync.open("v.img", frames=17)
        for options in ({"frames": -1}, {"frames": 1 << 32}, {"copies": -1}):
            with self.assertRaises(famsync.Argument):
                famsync.open("v.img", **options)
        with self.assertRaises(TypeError):
            famsync.open("v.img", frames="3")

    def test_defaults_are_those_of_c(self):
        """In C a null pointer means the defaults, which are all zero."""
        for opens in (famsync.open, famsync.Volume):
            options = list(inspect.signature(opens).parameters.values())[1:]
            self.assertEqual({option.name: option.default for option in options if option.default}, {})
            self.assertIn("copies", [option.name for option in options])

    def test_foreground_has_no_thread(self):
        for foreground, threads in ((True, 0), (False, 1)):
            before = len(os.listdir("/proc/self/task"))
            with famsync.open("v.img", foreground=foreground):
                self.assertEqual(len(os.listdir("/proc/self/task")) - before, threads)


class Waits(InAFolder):
    def test_for_a_volume_in_use(self):
        with famsync.open("v.img"):
            began = time.monotonic()
            self.assertRaises(famsync.InUse, famsync.open, "v.img", wait_ms=100)
            self.assertGreater(time.monotonic() - began, 0.09)
        held = famsync.open("v.img")
        timer = threading.Timer(0.1, held.close)
        timer.start()
        famsync.open("v.img", wait_ms=60000).close()
        timer.join()
        self.assertRaises(famsync.Argument, famsync.open, "v.img", wait_ms=-1)


class OnlyReads(InAFolder):
    def setUp(self):
        super().setUp()
        with famsync.open("v.img") as volume, volume.memory("a") as memory:
            memory[0:5] = b"first"
            volume.commit()

    def test_several_read(self):
        with famsync.open("v.img", readonly=True) as one, famsync.open("v.img", readonly=True) as two:
            self.assertEqual((one.memory("a")[0:5], two.read("a", 0, 5)), (b"first", b"first"))
            self.assertRaises(famsync.InUse, famsync.open, "v.img")
        with famsync.open("v.img"):
            self.assertRaises(famsync.InUse, famsync.open, "v.img", readonly=True)

    def test_nothing_is_stored(self):
        with famsync.open("v.img", readonly=True) as volume:
            memory = volume.memory("a")
            calls = [volume.commit, memory.touch, lambda: volume.write("a", 0, b"x")]
            calls += [lambda: volume.set_length("a", 1), lambda: memory.__setitem__(0, 1)]
            for call in calls:
                self.assertRaises(famsync.ReadOnly, call)
            volume.backup("copy")
            self.assertEqual(famsync.open("copy").read("a", 0, 5), b"first")
            with memory.view() as view:
                self.assertTrue(view.readonly)
                self.assertRaises(TypeError, view.__setitem__, 0, 1)
            if sys.version_info >= (3, 12):
                with memoryview(memory) as view:
                    self.assertTrue(view.readonly)
            self.assertEqual((memory[0:5], memory.dirty), (b"first", 0))

    def test_what_a_writer_left(self):
        code = """
import famsync, os
volume = famsync.open("v.img", foreground=True)
memory = volume.memory("a")
memory[0:5] = b"other"
volume.commit()
os._exit(0)
"""
        self.assertEqual(run_python(code).returncode, 0)
        self.assertRaises(famsync.NeedsOpening, famsync.open, "v.img", readonly=True)
        famsync.open("v.img").close()
        with famsync.open("v.img", readonly=True) as volume:
            self.assertEqual(volume.memory("a")[0:5], b"other")
        with open("v.img.suspect", "w", encoding="utf-8"):
            pass
        self.assertRaises(famsync.NeedsOpening, famsync.open, "v.img", readonly=True, trust=True)


class Ends(InAFolder):
    def test_stores_that_were_not_committed_are_gone(self):
        with famsync.open("v.img") as volume:
            memory = volume.memory("a")
            memory[0:5] = b"first"
            volume.write("b", 0, b"first")
            volume.commit()
            memory[0:5] = b"other"
            volume.write("b", 0, b"other")
        with famsync.open("v.img") as volume:
            self.assertEqual((volume.memory("a")[0:5], volume.read("b", 0, 5)), (b"first", b"first"))

    def test_every_call_of_a_closed_one(self):
        volume = famsync.open("v.img")
        volume.close()
        calls = [volume.commit, lambda: volume.files, lambda: volume.frames, lambda: volume.acknowledged]
        calls += [lambda: volume.memory("a"), lambda: volume.read("a"), lambda: volume.set_length("a", 1)]
        calls += [lambda: volume.read("a", 0, 0), lambda: volume.write("a", 0, b"x"), volume.stat]
        for call in calls:
            with self.assertRaisesRegex(ValueError, "the volume 'v.img' is closed"):
                call()
        volume.close()
        self.assertIn("v.img", repr(volume))

    def test_one_that_is_dropped(self):
        volume = famsync.open("v.img")
        volume.memory("a")[0] = 1
        del volume
        gc.collect()
        with famsync.open("v.img") as volume:
            self.assertEqual(volume.memory("a")[0], 0)

    def test_memory_keeps_it_open(self):
        memory = famsync.open("v.img").memory("a")
        with self.assertRaises(famsync.InUse):
            famsync.open("v.img")
        memory[0] = 1
        del memory
        gc.collect()
        famsync.open("v.img").close()

    def test_a_program_that_ends_without_it(self):
        code = """
import famsync, threading
volume = famsync.open("v.img")
memory, begun = volume.memory("a"), threading.Event()
def work():
    while True:
        memory[0] = 1
        volume.commit()
        begun.set()
for number in range(3):
    threading.Thread(target=work, daemon=True).start()
begun.wait()
view = memory.view()
"""
        for _ in range(5):
            ended = run_python(code)
            self.assertEqual((ended.returncode, ended.stderr), (0, ""))
            with famsync.open("v.img") as volume:
                self.assertEqual(volume.read("a", 0, 1), b"\1")

    def test_one_that_is_closed_as_the_program_ends(self):
        code = """
import atexit, famsync
volume = famsync.open("v.img")
atexit.register(volume.close)
memory = volume.memory("a")
memory[0] += 1
volume.commit()
memory[0] += 1
"""
        for number in (1, 2):
            ended = run_python(code)
            self.assertEqual((ended.returncode, ended.stderr), (0, ""))
            with famsync.open("v.img") as volume:
                self.assertEqual(volume.read("a", 0, 1)[0], number)

    def test_nothing_of_it_can_be_copied(self):
        volume = self.opened()
        with volume.memory("a") as memory:
            for one in (volume, memory):
                for make in (copy.copy, copy.deepcopy, pickle.dumps):
                    self.assertRaises(TypeError, make, one)
        self.assertEqual(volume.commit(), 1)

    def test_an_error_on_its_way_is_kept(self):
        with self.assertRaises(ZeroDivisionError):
            with famsync.open("v.img") as volume:
                view = volume.memory("a").view()
                view[0] = 1 // 0
        view.release()
        volume.close()


class Interrupted:
    """The library, of which a call raises after it was made, as the handler of an interrupt does."""

    def __init__(self, name):
        self.name = name

    def __getattr__(self, name):
        def call(*arguments):
            answer = getattr(library, name)(*arguments)
            if name == self.name:
                raise KeyboardInterrupt
            return answer

        return call


class Interrupts(InAFolder):
    """Whatever an interrupt comes behind, nothing is left open that nobody has."""

    def interrupted(self, module, name, call, *arguments):
        with mock.patch.object(module, "library", Interrupted(name)):
            self.assertRaises(KeyboardInterrupt, call, *arguments)

    def test_an_open(self):
        self.interrupted(_volume, "famsync_open", famsync.open, "v.img")
        famsync.open("v.img").close()

    def test_a_memory(self):
        volume = famsync.open("v.img")
        for name in ("famsync_memory_open", "famsync_memory_at", "famsync_memory_length"):
            self.interrupted(_memory, name, volume.memory, "a")
            volume.memory("a").close()
        with mock.patch.object(_memory, "library", Interrupted("famsync_memory_open_at")):
            with self.assertRaises(KeyboardInterrupt):
                volume.memory("a", address=0x230000000000)
        volume.memory("a", address=0x230000000000).close()
        volume.close()
        try:
            with famsync.open("v.img") as volume:
                with mock.patch.object(_memory, "library", Interrupted("famsync_memory_open")):
                    volume.memory("a")
        except KeyboardInterrupt:
            famsync.open("v.img").close()  # also while what was raised is kept, with all that it came through

    def test_a_call(self):
        volume = famsync.open("v.img")
        with self.assertRaises(KeyboardInterrupt):
            volume._session.call(mock.Mock(side_effect=KeyboardInterrupt))
        self.assertEqual(volume.commit(), 1)
        volume.close()
        famsync.open("v.img").close()


if __name__ == "__main__":
    unittest.main()
