"""Volumes that are made: their bytes, what is refused, and that what has the name stays."""

import errno
import os
import unittest

from support import KEY, LAYOUTS, InAFolder, famsync, log_blocks, make_volume


class Creating(InAFolder):
    def test_same_bytes(self):
        for layout in LAYOUTS:
            make_volume("theirs.img", 20, "bank=8192", "log=0/5000", layout=layout)
            how = {"log": log_blocks(20), "key": KEY if layout == 6 else 0}
            famsync.create(f"{layout}.img", {"bank": 8192, "log": (0, 5000)}, layout=layout, **how)
            with open("theirs.img", "rb") as theirs, open(f"{layout}.img", "rb") as ours:
                self.assertEqual(ours.read(), theirs.read())

    def test_each_layout_is_used(self):
        for layout in LAYOUTS:
            famsync.create(f"{layout}.img", {"bank": 8192, "log": (0, 100000)}, layout=layout)
            with famsync.open(f"{layout}.img") as volume:
                self.assertEqual(volume.frames, 16366)
                volume.set_length("log", 100000)
                for number in range(50):
                    volume.write("log", 99999, bytes((number,)))
                    volume.commit()
            with famsync.open(f"{layout}.img", readonly=True) as volume:
                self.assertEqual(volume.read("log", 99999), b"1")

    def test_is_used(self):
        famsync.create("new.img", {"bank": 8192, "log": (0, 100000)}, preallocate=True)
        with famsync.open("new.img") as volume:
            self.assertEqual((volume.files, volume.frames), ({"bank": 8192, "log": 0}, 16366))
            volume.set_length("log", 100000)
            volume.write("log", 99999, b"x")
            volume.commit()
        with famsync.open("new.img") as volume:
            self.assertEqual(volume.read("log", 99999), b"x")
            with self.assertRaises(famsync.System) as raised:
                famsync.create("new.img", {"a": 1})
            self.assertEqual(raised.exception.errno, errno.EEXIST)
            self.assertEqual(volume.read("log", 99999), b"x")

    def test_is_refused(self):
        for files, how, why in (
            ({}, {}, "1 to 64 files"),
            ({"a": 0}, {}, "at least 1"),
            ({"a b": 1}, {}, "name"),
            ({"a": (2, 1)}, {}, "capacity"),
            ({"a": 1 << 63}, {}, "blocks"),
            ({"a": 1}, {"layout": 4}, "layout must be 5 or 6"),
            ({"a": 1}, {"layout": 7}, "layout must be 5 or 6"),
            ({"a": 1}, {"layout": 5, "log": 3}, "4 to"),
            ({"a": 1}, {"layout": 5, "log": 0}, "log"),
            ({"a": 1}, {"layout": 5, "key": 1}, "key"),
            ({"a": 1}, {"layout": 6, "key": 1 << 64}, "key"),
            ({"a": 1}, {"layout": 0}, "layout"),
            ({"a": -1}, {}, "length"),
            ({"a": (1, 1 << 64)}, {}, "capacity"),
            ({"a\0": 1}, {}, "null byte"),
        ):
            with self.assertRaisesRegex(famsync.Argument, why):
                famsync.create("new.img", files, **how)
            self.assertFalse(os.path.exists("new.img"))
        self.assertRaises(TypeError, famsync.create, "new.img", {"a": "1"})
        with self.assertRaises(famsync.System) as raised:
            famsync.create("no/new.img", {"a": 1})
        self.assertEqual(raised.exception.errno, errno.ENOENT)


if __name__ == "__main__":
    unittest.main()
