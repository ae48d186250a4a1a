"""Groups: each commit has all changes of a group, or none; and what a thread can't do within one."""

import gc
import struct
import threading
import time
import unittest

from support import PAGE, InAFolder, famsync, forked

COMMITS = 30


class Groups(InAFolder):
    pages, files = 64, ("a=32768", "b=8192")

    def found(self, volume):
        """What is committed."""
        volume.backup("copy.img")
        with famsync.open("copy.img", readonly=True) as copy:
            return copy.read("a"), copy.read("b")

    def test_transfers(self):
        """Two threads move money, a third commits without their lock: the sum is always 0."""
        volume = self.opened()
        lock, done, moved = threading.Lock(), threading.Event(), []

        memory = volume.memory("a")
        accounts = memory.view().cast("q")

        def move(number):
            turn = number
            while not done.is_set():
                turn += 1
                with volume.group():
                    with lock:
                        accounts[turn * 513 % 4096] -= 7
                        accounts[(turn * 517 + 9) % 4096] += 7
                    if turn % 8 == 0:
                        volume.write("b", 0, struct.pack("q", turn))
                moved.append(turn)

        threads = [threading.Thread(target=move, args=(number,)) for number in range(2)]
        for thread in threads:
            thread.start()
        try:
            for _ in range(COMMITS):
                volume.commit()
                self.assertEqual(sum(struct.unpack("4096q", self.found(volume)[0])), 0)
        finally:
            done.set()
            for thread in threads:
                thread.join()
        self.assertGreater(len(moved), 0)
        accounts.release()

    def test_a_commit_waits(self):
        volume = self.opened()
        memory, marks = volume.memory("a"), []
        commit = threading.Thread(target=lambda: marks.append(volume.commit()))
        with volume.group():
            memory[0] = 1
            commit.start()
            time.sleep(0.05)
            self.assertEqual(marks, [])
            with volume.group():
                memory[PAGE] = 1
            time.sleep(0.05)
            self.assertEqual(marks, [])
            volume.write("b", 0, b"1")
        commit.join()
        self.assertEqual(marks, [1])
        a, b = self.found(volume)
        self.assertEqual((a[0], a[PAGE], b[:1]), (1, 1, b"1"))

    def test_within_a_group(self):
        volume = self.opened()
        memory = volume.memory("a")
        memory[0] = 1
        with volume.group():
            self.assertRaises(famsync.Busy, volume.commit)
            self.assertRaises(famsync.Busy, volume.rollback)
            self.assertRaises(famsync.Busy, volume.close)
            self.assertEqual((memory[0], volume.acknowledged), (1, 0))
        group = volume.group()
        for _ in range(2):
            with group:
                with self.assertRaises(RuntimeError), group:
                    pass
                self.assertRaises(famsync.Busy, volume.commit)
        self.assertEqual(volume.commit(), 1)
        with self.assertRaises(ZeroDivisionError), volume.group():
            memory[0] = 1 // 0
        self.assertEqual(volume.commit(), 2)
        volume.close()
        self.assertRaises(ValueError, volume.group)
        with self.assertRaises(ValueError), group:
            pass

    def test_a_group_of_another_thread(self):
        volume = self.opened()
        begun, ends = threading.Event(), threading.Event()

        def hold():
            with volume.group():
                begun.set()
                ends.wait(60)

        thread = threading.Thread(target=hold)
        thread.start()
        begun.wait(60)
        self.assertRaises(famsync.Busy, volume.close)
        volume.write("a", 0, b"1")
        ends.set()
        thread.join()
        self.assertEqual(volume.commit(), 1)

    def test_a_thread_that_ends(self):
        volume = self.opened()
        groups = []

        def leave():
            groups.append(volume.group())
            groups[0].__enter__()
            volume.write("a", 0, b"1")

        thread = threading.Thread(target=leave)
        thread.start()
        thread.join()
        self.assertRaises(famsync.Torn, volume.commit)
        volume.rollback()
        self.assertEqual(volume.commit(), 1)
        self.assertEqual(volume.read("a", 0, 1), b"\0")
        self.assertRaises(famsync.Busy, volume.close)
        groups.clear()
        gc.collect()
        volume.close()

    def test_sessions_that_only_read(self):
        self.opened().close()
        with famsync.open("v.img", readonly=True) as volume:
            with self.assertRaises(famsync.ReadOnly), volume.group():
                pass

    def test_a_fork(self):
        volume = self.opened()

        def child():
            self.assertRaises(famsync.Forked, volume.group)
            self.assertRaises(famsync.Forked, volume.commit)

        with volume.group():
            self.assertEqual(forked(child), 0)
            self.assertRaises(famsync.Busy, volume.commit)
        self.assertEqual(volume.commit(), 1)


if __name__ == "__main__":
    unittest.main()
