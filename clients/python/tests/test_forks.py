"""A process that is forked has copies of everything, and reaches nothing with them."""

import multiprocessing
import unittest

from support import InAFolder, famsync, forked


class Forks(InAFolder):
    def setUp(self):
        super().setUp()
        self.volume = self.opened()
        self.memory = self.volume.memory("a")
        self.memory[0:5] = b"first"
        self.volume.write("b", 0, b"first")

    def test_each_call_of_a_child(self):
        volume, memory = self.volume, self.memory
        calls = [volume.commit, lambda: volume.files, lambda: volume.frames, lambda: volume.acknowledged]
        calls += [lambda: volume.memory("b"), lambda: volume.read("b"), lambda: volume.set_length("a", 1)]
        calls += [lambda: volume.write("b", 0, b"x"), lambda: memory.dirty, volume.stat, lambda: volume.backup("copy")]

        def work():
            for call in calls:
                self.assertRaises(famsync.Forked, call)
            with self.assertRaises(famsync.InUse):
                famsync.open("v.img")

        self.assertEqual(forked(work), 0)
        self.assertEqual((volume.commit(), memory[0:5], volume.read("b", 0, 5)), (1, b"first", b"first"))

    def test_a_child_has_a_copy_of_the_memory(self):
        def work():
            self.assertEqual(self.memory[0:5], b"first")
            self.memory[0:5] = b"child"
            self.memory[10000] = 1
            self.assertEqual((self.memory[0:5], self.memory[10000]), (b"child", 1))

        self.assertEqual(forked(work), 0)
        self.assertEqual((self.memory[0:5], self.memory[10000], self.volume.commit()), (b"first", 0, 1))

    def test_a_child_that_closes(self):
        def work():
            self.memory.close()
            self.assertRaises(ValueError, lambda: self.memory[0])
            self.volume.close()
            self.assertRaises(famsync.Forked, self.volume.commit)
            self.volume.close()
            self.volume = self.memory = None

        self.assertEqual(forked(work), 0)
        self.memory[0:5] = b"later"
        self.assertEqual((self.volume.commit(), self.memory[0:5]), (1, b"later"))

    def test_a_child_that_ends_as_programs_do(self):
        before = self.volume.commit()
        try:
            child = multiprocessing.get_context("fork").Process(target=self.volume.close)
            child.start()
        except DeprecationWarning:
            self.skipTest("warnings are errors, and Python warns of forks")
        child.join(60)
        self.assertEqual((child.exitcode, self.volume.commit()), (0, before + 1))

    def test_a_child_does_not_keep_the_volume(self):
        def work():
            self.assertEqual(self.memory[0:5], b"first")

        self.volume.commit()
        self.memory.close()
        self.volume.close()
        self.assertEqual(forked(lambda: famsync.open("v.img").close()), 0)
        self.volume = self.opened()
        self.memory = self.volume.memory("a")
        self.assertEqual(forked(work), 0)
        self.volume.close()
        famsync.open("v.img").close()


if __name__ == "__main__":
    unittest.main()
