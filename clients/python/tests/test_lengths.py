"""Lengths that are set."""

import unittest

from support import PAGE, InAFolder, famsync


class InLayout5(InAFolder):
    pages, files = 5, ("a=5000/40000", "b=0/4096")

    def test_what_is_refused(self):
        volume = self.opened()
        self.assertEqual((volume.frames, volume.files), (5, {"a": 5000, "b": 0}))
        self.assertRaises(famsync.Invalid, volume.set_length, "a", 40001)
        for length in (-1, 1 << 64):
            self.assertRaises(famsync.Argument, volume.set_length, "a", length)
        self.assertRaises(TypeError, volume.set_length, "a", "1")
        self.assertRaises(famsync.NoFrame, volume.set_length, "a", 40000)
        self.assertRaises(famsync.Argument, volume.memory, "b")
        self.assertEqual(volume.files, {"a": 5000, "b": 0})

    def test_it_grows_and_shrinks(self):
        with famsync.open("v.img") as volume:
            volume.write("a", 4999, b"\5")
            self.assertRaises(famsync.Invalid, volume.write, "a", 2 * PAGE, b"\2")
            volume.set_length("a", 20000)
            volume.write("a", 19999, b"\2")
            self.assertEqual((volume.files["a"], volume.read("a", 4998, 3)), (20000, b"\0\5\0"))
            self.assertEqual((volume.read("a", 19999), volume.read("a", 20000)), (b"\2", b""))
            volume.commit()
            volume.set_length("a", 30000)
            volume.set_length("b", 1)
        with famsync.open("v.img") as volume:
            self.assertEqual(volume.files, {"a": 20000, "b": 0})
            volume.set_length("a", 10)
            volume.commit()
            volume.set_length("a", 5000)
            self.assertEqual(volume.read("a", 4990), bytes(10))
        with famsync.open("v.img") as volume:
            self.assertEqual(volume.files["a"], 10)

    def test_memory_has_the_length_with_which_it_was_opened(self):
        volume = self.opened()
        with volume.memory("a") as memory:
            memory[4999] = 5
            self.assertRaises(famsync.Busy, volume.set_length, "a", 20000)
            volume.set_length("b", 4096)
            volume.commit()
        volume.set_length("a", 20000)
        with volume.memory("a") as memory, volume.memory("b") as other:
            self.assertEqual((len(memory), len(other), memory[4999], memory[5000]), (20000, 4096, 5, 0))


class InLayout6(InLayout5):
    layout = 6

    def test_a_commit_of_many_pages(self):
        self.make(1500, "a=6144000", "b=5/4096")
        with famsync.open("v.img") as volume:
            self.assertEqual(volume.frames, 1500)
            with volume.memory("a") as memory:
                for page in range(1500):
                    memory[page * PAGE + page] = page % 255 + 1
                volume.set_length("b", 0)
                self.assertEqual(volume.commit(), 1)
        with famsync.open("v.img") as volume:
            found = [volume.read("a", page * PAGE + page, 1)[0] for page in range(1500)]
            self.assertEqual((volume.files["b"], found), (0, [page % 255 + 1 for page in range(1500)]))


if __name__ == "__main__":
    unittest.main()
