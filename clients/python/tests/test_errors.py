"""Each code is a class, and what makes it."""

import errno
import os
import pickle
import re
import resource
import socket
import unittest
from contextlib import contextmanager
from pathlib import Path

from support import PACKAGE, PAGE, TOP, InAFolder, famsync
from famsync import _errors


@contextmanager
def limited(kind, limit):
    before = resource.getrlimit(kind)
    resource.setrlimit(kind, (limit, before[1]))
    try:
        yield
    finally:
        resource.setrlimit(kind, before)


class Classes(unittest.TestCase):
    def test_they_are_those_of_the_header(self):
        with open(f"{TOP}/clients/c/famsync.h", encoding="utf-8") as header:
            codes = [int(code) for code in re.findall(r"FAMSYNC_[A-Z]+ = (-[0-9]+)", header.read())]
        self.assertGreater(len(codes), 20)
        self.assertEqual(sorted(_errors.CLASSES), sorted(codes))

    def test_their_names(self):
        """A class has the name of its code, or README.md says which code it is."""
        with open(f"{TOP}/clients/c/famsync.h", encoding="utf-8") as header:
            names = {int(code): name for name, code in re.findall(r"FAMSYNC_([A-Z]+) = (-[0-9]+)", header.read())}
        with open(f"{PACKAGE}/README.md", encoding="utf-8") as page:
            section = page.read().partition("## Errors\n")[2].partition("\n## ")[0]
        other = dict(re.findall(r"`(\w+)`\s\(([A-Z]+)\)", section))
        for code, kind in _errors.CLASSES.items():
            self.assertEqual(other.pop(kind.__name__, kind.__name__.upper()), names[code])
        self.assertEqual(other, {})

    def test_each_is_an_error_with_its_words(self):
        for code, kind in _errors.CLASSES.items():
            with self.assertRaises(kind) as caught:
                _errors.check(code)
            self.assertIsInstance(caught.exception, famsync.Error)
            self.assertEqual(caught.exception.code, code)
            self.assertNotIn("unknown code", str(caught.exception))
            self.assertIs(getattr(famsync, kind.__name__), kind)
            self.assertIn(kind.__name__, famsync.__all__)

    def test_those_that_python_has_a_class_for(self):
        self.assertTrue(issubclass(famsync.Argument, ValueError))
        self.assertTrue(issubclass(famsync.NoMemory, MemoryError))
        for kind in (famsync.System, famsync.Device, famsync.Broken, famsync.Unmarked):
            self.assertTrue(issubclass(kind, OSError))
        for kind, other in ((famsync.NotFound, FileNotFoundError), (famsync.Exists, FileExistsError)):
            self.assertTrue(issubclass(kind, famsync.System) and issubclass(kind, other))

    def test_a_code_of_a_later_library(self):
        with self.assertRaises(famsync.Error) as caught:
            _errors.check(-99)
        self.assertEqual((type(caught.exception), caught.exception.code), (famsync.Error, -99))

    def test_they_can_be_pickled(self):
        kept = [famsync.System(2, "nowhere"), famsync.Device(28, "full"), famsync.NoFrame("full", done=3, read=b"abc")]
        kept.append(famsync.NotFound(2, "nowhere"))
        for error in kept:
            again = pickle.loads(pickle.dumps(error))
            self.assertEqual((type(again), again.args, again.done), (type(error), error.args, error.done))


class Opening(InAFolder):
    def refuses(self, kind, path="v.img", said=None, **options):
        with self.assertRaisesRegex(kind, said or re.escape(path)) as caught:
            famsync.open(path, **options)
        return caught.exception

    def test_paths(self):
        self.assertEqual(self.refuses(famsync.System, "nowhere.img").errno, 2)
        self.assertEqual(self.refuses(FileNotFoundError, "nowhere/v.img").code, famsync.System.code)
        self.assertRaisesRegex(FileExistsError, "v.img", famsync.create, "v.img", {"a": 1})
        self.refuses(famsync.System, "v.img/v.img", said=os.strerror(errno.ENOTDIR))
        self.refuses(famsync.NotRegular, ".")
        self.refuses(famsync.NotRegular, "/dev/null")
        with socket.socket(socket.AF_UNIX) as bound:
            bound.bind("socket")
            self.refuses(famsync.NotRegular, "socket")
        os.link("v.img", "other")
        self.refuses(famsync.SeveralNames)
        for path in ("", "v.img\0"):
            self.refuses(famsync.Argument, path, said=".")
        with self.assertRaises(TypeError):
            famsync.open(1)

    def test_in_use(self):
        with famsync.open("v.img"):
            self.refuses(famsync.InUse)
        famsync.open("v.img").close()

    def test_suspect(self):
        with open("v.img.suspect", "w", encoding="utf-8"):
            pass
        self.refuses(famsync.Suspect, said="v.img.suspect")
        famsync.open("v.img", trust=True).close()
        famsync.open("v.img").close()

    def test_bytes(self):
        with open("v.img", "r+b") as file:
            file.truncate(os.path.getsize("v.img") - 1)
        self.refuses(famsync.Damaged)
        self.make(16, "a=1")
        with open("v.img", "r+b") as file:
            file.seek(PAGE)
            file.write(b"\xa7")  # the other start, which is none
        self.refuses(famsync.Damaged)
        with open("v.img", "r+b") as file:
            file.write(b"FAMSYNC9")
        self.refuses(famsync.NotAVolume)
        os.truncate("v.img", 0)
        self.refuses(famsync.NotAVolume)


    def test_layouts_with_journals(self):
        for layout in (1, 2, 3, 4):
            with open("v.img", "wb") as file:
                file.write((b"FAMSYNC%d" % layout).ljust(3 * PAGE, b"\0"))
            said = f"v.img.*layout {layout}; copy it with `famsync migrate --layout 5 OLD NEW`"
            self.assertEqual(self.refuses(famsync.OldLayout, said=said).code, -47)
            self.refuses(famsync.OldLayout, said=said, readonly=True)
            with open("v.img", "rb") as file:
                self.assertEqual(file.read(), (b"FAMSYNC%d" % layout).ljust(3 * PAGE, b"\0"))


class InASession(InAFolder):
    pages = 8
    files = ("a=131072", "b=5000")

    def test_names_and_numbers(self):
        volume = self.opened()
        calls = [volume.memory, volume.read, lambda name: volume.write(name, 0, b"x")]
        for call in [*calls, lambda name: volume.set_length(name, 1)]:
            self.assertRaises(famsync.NoFile, call, "c")
            self.assertRaises(famsync.Argument, call, "a\0")
            self.assertRaises(TypeError, call, 1)
        for place in ((-1,), (1 << 64,), (0, -1), (0, 1 << 64)):
            self.assertRaises(famsync.Argument, volume.read, "a", *place)
        for offset in (-1, 1 << 64):
            self.assertRaises(famsync.Argument, volume.write, "a", offset, b"x")
        for place in ("0", None, 1.0):
            self.assertRaises(TypeError, volume.read, "a", place)
            self.assertRaises(TypeError, volume.write, "a", place, b"x")
        self.assertEqual(volume.commit(), 1)

    def says(self, text, kind, call, *arguments):
        with self.assertRaises(kind) as caught:
            call(*arguments)
        self.assertEqual(str(caught.exception), text)

    def test_texts(self):
        volume = self.opened()
        past = 'famsync_write: offset 4900 with 101 bytes ends past the 5000 bytes of "b"'
        self.says(past, famsync.Invalid, volume.write, "b", 4900, bytes(101))
        pages = "famsync_write: the range has 9 pages; one commit can have at most 8"
        self.says(pages, famsync.NoFrame, volume.write, "a", 1, bytes(8 * PAGE))
        self.says('famsync_memory_open: the volume has no file "c"', famsync.NoFile, volume.memory, "c")
        self.says("the volume has no file 'c'", famsync.NoFile, volume.read, "c")
        own = "famsync_backup: the backup's file is the volume's file"
        self.says(own, famsync.Argument, volume.backup, Path("v.img"))

    def test_more_pages_than_a_commit_has(self):
        volume = self.opened()
        with self.assertRaises(famsync.NoFrame) as caught:
            volume.write("a", 0, b"x" * (8 * PAGE + 1))
        self.assertEqual((caught.exception.done, volume.read("a", 0, 1)), (0, b"\0"))
        volume.write("a", 0, b"x" * (8 * PAGE))
        self.assertRaises(famsync.NoFrame, volume.write, "a", 8 * PAGE, b"x")
        self.assertEqual(volume.commit(), 1)
        memory = volume.memory("a")
        for page in range(9):
            memory[2 * page * PAGE] = 1
        self.assertRaises(famsync.NoFrame, volume.commit)
        self.assertEqual((memory.dirty, volume.acknowledged), (9, 1))
        memory.close()
        self.assertEqual(volume.commit(), 2)

    def test_more_pages_in_both_ways_together(self):
        volume = self.opened()
        volume.write("a", 16 * PAGE, b"9" * (4 * PAGE))
        memory = volume.memory("a")
        for page in range(6):
            memory[2 * page * PAGE] = 3
        self.assertRaises(famsync.NoFrame, volume.commit)
        memory.close()
        self.assertEqual((volume.commit(), volume.read("a", 16 * PAGE, 1), volume.read("a", 0, 1)), (1, b"9", b"\0"))

    def test_memory_is_open(self):
        volume = self.opened()
        with volume.memory("a"):
            self.assertRaises(famsync.Overlap, volume.memory, "a")
            self.assertRaises(famsync.Busy, volume.set_length, "a", 1)

    def fails(self, kind, number, call, *arguments):
        """A call fails, and says by errno how: a full disk, a broken one and want of memory aren't the same."""
        with self.assertRaisesRegex(kind, os.strerror(number)) as caught:
            call(*arguments)
        self.assertEqual((caught.exception.errno, caught.exception.code), (number, kind.code))

    def test_device(self):
        volume = self.opened()
        volume.write("a", 0, b"first")
        with limited(resource.RLIMIT_FSIZE, PAGE):
            self.fails(famsync.Device, errno.EFBIG, volume.commit)
            self.fails(famsync.Broken, errno.EFBIG, volume.commit)
        self.fails(famsync.Broken, errno.EFBIG, volume.read, "a")
        self.fails(famsync.Broken, errno.EFBIG, volume.stat)
        self.assertEqual(volume.acknowledged, 0)
        self.fails(famsync.Device, errno.EFBIG, volume.close)
        volume.close()
        with famsync.open("v.img") as volume:
            self.assertEqual(volume.read("a", 0, 5), bytes(5))

    def test_a_read_that_fails(self):
        volume = self.opened()
        blocks = os.path.getsize("v.img") // PAGE
        volume.write("a", 0, b"first")
        with open("v.img", "r+b") as file:
            file.truncate((blocks - 10) * PAGE)
        self.fails(famsync.Device, errno.EIO, volume.read, "a", 100000)
        with self.assertRaises(famsync.Device) as caught:
            volume.read("a", 2)
        self.assertEqual((caught.exception.done, caught.exception.read), (PAGE - 2, b"rst" + bytes(PAGE - 5)))

    def test_a_transaction_in_which_a_read_fails(self):
        """The session goes on, so the changes of the block are undone."""
        volume = self.opened()
        size = os.path.getsize("v.img")
        with self.assertRaises(famsync.Device), volume.transaction():
            volume.write("a", 0, b"first")
            os.truncate("v.img", size - 10 * PAGE)
            volume.read("a", 100000)
        os.truncate("v.img", size)
        self.assertEqual((volume.read("a", 0, 5), volume.commit()), (bytes(5), 1))

    def test_a_transaction_in_which_a_write_fails(self):
        volume = self.opened()
        with self.assertRaises(famsync.Device) as caught, limited(resource.RLIMIT_FSIZE, PAGE), volume.transaction():
            volume.write("a", 0, b"first")
        self.assertEqual(caught.exception.errno, errno.EFBIG)
        self.assertRaises(famsync.Broken, volume.read, "a")
        self.assertRaises(famsync.Device, volume.close)

    def test_no_memory(self):
        self.make(8, f"big={1 << 28}")
        volume = self.opened()
        with open("/proc/self/statm", encoding="ascii") as file:
            used = int(file.read().split()[0]) * resource.getpagesize()
        with limited(resource.RLIMIT_AS, used + (1 << 26)):
            self.assertRaises(famsync.NoMemory, volume.memory, "big")
        self.assertEqual(volume.commit(), 1)


if __name__ == "__main__":
    unittest.main()
