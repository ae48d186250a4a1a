"""Backups, and what a session says of itself."""

import errno
import os
import pathlib
import threading
import unittest

from support import LAYOUTS, PAGE, InAFolder, famsync


class Backups(InAFolder):
    pages, files = 15, ("a=20000", "b=5000/9000")

    def found(self, path="copy"):
        with famsync.open(path, readonly=True) as volume:
            return {name: volume.read(name) for name in volume.files}

    def test_what_was_committed(self):
        volume = self.opened()
        volume.write("a", 100, b"first")
        volume.set_length("b", 10)
        volume.commit()
        volume.write("a", 100, b"later")
        volume.memory("b")[0] = 1
        wanted = {"a": bytes(100) + b"first" + bytes(20000 - 105), "b": bytes(10)}
        for path in ("copy", b"copy", pathlib.Path("copy"), os.path.abspath("copy")):
            volume.backup(path)
            self.assertEqual(self.found(), wanted)
        with open("other", "w+b") as file:
            file.write(b"something else" * 100000)
            volume.backup(file)
            volume.backup(file.fileno())
        self.assertEqual(self.found("other"), wanted)
        self.assertEqual(volume.commit(), 2)

    def test_beside_commits(self):
        volume, done = self.opened(), threading.Event()

        def commits():
            number = 0
            while not done.is_set():
                number += 1
                for page in range(4):
                    volume.write("a", page * PAGE, number.to_bytes(8, "little"))
                volume.commit()

        thread = threading.Thread(target=commits)
        thread.start()
        for _ in range(5):
            before = volume.acknowledged
            volume.backup("copy")
            pages = self.found()["a"]
            numbers = {int.from_bytes(pages[page * PAGE :][:8], "little") for page in range(4)}
            self.assertEqual(len(numbers), 1)
            self.assertTrue(before <= numbers.pop() <= volume.acknowledged)
        done.set()
        thread.join()

    def test_what_is_refused(self):
        volume = self.opened()
        with open("copy", "wb") as file:
            self.assertRaises(famsync.Argument, volume.backup, file)
        with open("v.img", "r+b") as file:
            self.assertRaises(famsync.Argument, volume.backup, file)
        self.assertRaises(famsync.Argument, volume.backup, -1)
        self.assertRaises(famsync.Argument, volume.backup, "v.img")
        self.assertRaises(famsync.Argument, volume.backup, "a\0")
        self.assertRaises(TypeError, volume.backup, None)
        self.assertRaises(FileNotFoundError, volume.backup, "nowhere/copy")
        with self.assertRaises(famsync.System) as caught:
            volume.backup(1000)
        self.assertEqual(caught.exception.errno, errno.EBADF)
        volume.backup("copy")
        with famsync.open("copy"):
            self.assertRaises(famsync.InUse, volume.backup, "copy")
        volume.close()
        self.assertRaises(ValueError, volume.backup, "copy")


class Numbers(InAFolder):
    def test_of_a_session(self):
        volume = self.opened(foreground=True)
        stat = volume.stat()
        self.assertEqual((stat.commits, stat.frames, stat.staged, stat.unwritten), (0, 16, 0, 0))
        volume.write("a", PAGE - 1, b"xy")
        with volume.memory("b") as memory:
            memory[0] = 1
            self.assertEqual(volume.stat().staged, 3)
            volume.commit()
        after = volume.stat()
        self.assertEqual((after.commits, after.staged, after.unwritten, after.syncs), (1, 0, 4, stat.syncs + 2))
        self.assertEqual((after.writes, after.bytes_written), (stat.writes + 2, stat.bytes_written + 4 * PAGE + 1))
        self.assertTrue(after.reads > 0 and after.memory > 0)
        volume.close()
        self.assertRaises(ValueError, volume.stat)

    def test_of_a_volume(self):
        famsync.create("5.img", {"a": 65536, "b": (0, 5000)}, log=10)
        with famsync.open("5.img", frames=3) as volume:
            blocks = os.path.getsize("5.img") // PAGE
            self.assertEqual(volume.info(), famsync.Info(5, blocks, 2, 10, 0, 7, False))
            self.assertEqual((volume.frames, volume.capacities), (3, {"a": 65536, "b": 5000}))
        with famsync.open("5.img", readonly=True) as volume:
            self.assertIs(volume.info().readonly, True)
        self.assertRaises(ValueError, volume.info)
        self.assertRaises(ValueError, lambda: volume.capacities)

    def test_of_each_layout(self):
        for layout in LAYOUTS:
            famsync.create("log.img", {"a": 65536}, layout=layout, log=20)
            with famsync.open("log.img", foreground=True) as volume:
                volume.write("a", 0, b"x")
                volume.commit()
                blocks = os.path.getsize("log.img") // PAGE
                self.assertEqual(volume.info(), famsync.Info(layout, blocks, 1, 20, 2, 17, False))
            os.unlink("log.img")


if __name__ == "__main__":
    unittest.main()
