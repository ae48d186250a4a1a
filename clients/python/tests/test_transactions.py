"""Transactions: all changes of a block are committed, or none, whatever ends the block; and who is refused meanwhile.

Interrupts come at each step of a transaction, in turn, and from a timer at random moments. Afterwards the program goes
on, and commits: no transaction is there in part.
"""

import itertools
import os
import random
import signal
import sys
import tempfile
import threading
import time
import unittest
from contextlib import suppress

from support import PACKAGE, InAFolder, famsync

FOLDER = os.path.join(PACKAGE, "famsync")
SIGNALS = int(os.environ.get("SIGNALS", "150"))
Refused = (famsync.InTransaction, famsync.Torn)


class Transactions(InAFolder):
    pages, files = 15, ("a=20000/40000", "b=5000")

    def found(self):
        """The first bytes of both files, as the next session finds them."""
        with famsync.open("v.img") as volume:
            return volume.read("a", 0, 1)[0], volume.read("b", 0, 1)[0]

    def elsewhere(self, call):
        """Makes a call in another thread, and returns what it raised."""
        raised = []

        def work():
            try:
                call()
            except BaseException as error:
                raised.append(error)

        thread = threading.Thread(target=work)
        thread.start()
        thread.join(60)
        return raised[0] if raised else None

    def test_a_rollback_that_is_refused(self):
        """Somebody has a view of memory whose length was set: commits are refused until a rollback succeeds."""
        volume = self.opened()
        with self.assertRaises(BufferError) as raised, volume.transaction():
            volume.write("b", 0, b"\1")
            volume.set_length("a", 30000)
            view = volume.memory("a").view()
            view[0] = 1
            raise ZeroDivisionError
        self.assertIsInstance(raised.exception.__context__, ZeroDivisionError)
        for call in (volume.commit, volume.transaction().__enter__):
            self.assertRaises(famsync.InTransaction, call)
        self.assertRaises(BufferError, volume.rollback)
        view.release()
        self.assertRaises(famsync.InTransaction, volume.commit)
        self.assertIsNone(self.elsewhere(volume.rollback))  # by any thread, as the block has ended
        self.assertEqual((volume.files["a"], volume.read("b", 0, 1)), (20000, b"\0"))
        with volume.transaction():
            volume.write("a", 0, b"\2")
        volume.close()
        self.assertEqual(self.found(), (2, 0))

    def test_an_interrupt_in_place_of_a_rollback(self):
        volume = self.opened()

        def interrupted(number):
            raise KeyboardInterrupt

        volume._undo = interrupted  # as a signal that comes before the call
        with self.assertRaises(KeyboardInterrupt), volume.transaction():
            volume.write("a", 0, b"\1")
            raise ZeroDivisionError
        del volume._undo
        self.assertRaises(famsync.InTransaction, volume.commit)
        volume.rollback()
        self.assertEqual(volume.commit(), 1)
        volume.close()
        self.assertEqual(self.found(), (0, 0))

    def test_one_within_another(self):
        volume = self.opened()
        for fails in (False, True):
            with suppress(ZeroDivisionError), volume.transaction():
                volume.write("a", 0, b"\1")
                with self.assertRaises(famsync.InTransaction), volume.transaction():
                    self.fail("this block isn't reached")
                self.assertRaises(famsync.InTransaction, volume.commit)
                volume.write("b", 0, b"\1")
                if fails:
                    volume.write("a", 0, b"\2")
                    raise ZeroDivisionError
            self.assertEqual((volume.acknowledged, volume.read("a", 0, 1), volume.read("b", 0, 1)), (1, b"\1", b"\1"))
        volume.close()
        self.assertEqual(self.found(), (1, 1))

    def test_a_rollback_in_a_block(self):
        volume = self.opened()
        with volume.transaction():
            volume.write("a", 0, b"\1")
            volume.rollback()
        self.assertEqual((volume.acknowledged, volume.read("a", 0, 1)), (0, b"\0"))
        with self.assertRaises(famsync.Torn), volume.transaction():
            volume.write("a", 0, b"\1")
            volume.rollback()
            volume.write("b", 0, b"\1")
        self.assertEqual((volume.acknowledged, volume.read("b", 0, 1), volume.commit()), (0, b"\0", 1))
        with self.assertRaises(ZeroDivisionError), volume.transaction():
            volume.rollback()
            volume.write("b", 0, b"\1")
            raise ZeroDivisionError
        self.assertEqual(volume.read("b", 0, 1), b"\0")

    def test_other_threads(self):
        volume = self.opened()
        with volume.transaction():
            volume.write("a", 0, b"\1")
            for call in (volume.commit, volume.rollback, volume.transaction().__enter__):
                self.assertIsInstance(self.elsewhere(call), famsync.InTransaction)
            self.assertIsNone(self.elsewhere(lambda: volume.write("b", 0, b"\1")))
        self.assertEqual(volume.commit(), 2)
        volume.close()
        self.assertEqual(self.found(), (1, 1))

    def test_a_thread_that_ends_in_a_block(self):
        volume = self.opened()

        def work():
            volume.transaction().__enter__()
            volume.write("a", 0, b"\1")

        self.assertIsNone(self.elsewhere(work))
        self.assertRaises(famsync.InTransaction, volume.commit)
        volume.rollback()
        self.assertEqual(volume.commit(), 1)
        volume.close()
        self.assertEqual(self.found(), (0, 0))

    def test_many_threads(self):
        """Threads that make transactions, commit and roll back at the same time: each transaction is there as a whole,
        also in each commit that a backup shows."""
        volume, done, made = self.opened(), threading.Event(), itertools.count()

        def work():
            while not done.is_set():
                with suppress(famsync.InTransaction), volume.transaction():
                    number = bytes([volume.read("a", 0, 1)[0] % 255 + 1])
                    volume.write("a", 0, number)
                    next(made)
                    volume.write("b", 0, number)

        def disturb():
            while not done.is_set():
                for call in (volume.commit, volume.rollback):
                    with suppress(famsync.InTransaction):
                        call()

        threads = [threading.Thread(target=target) for target in (work, work, disturb)]
        for thread in threads:
            thread.start()
        try:
            for _ in range(20):
                volume.backup("copy.img")
                with famsync.open("copy.img", readonly=True) as copy:
                    self.assertEqual(copy.read("a", 0, 1), copy.read("b", 0, 1))
        finally:
            done.set()
            for thread in threads:
                thread.join()
        self.assertGreater(next(made), 0)

    def test_it_can_be_used_again(self):
        volume = self.opened()
        transaction = volume.transaction()
        for number in (1, 2):
            with transaction:
                volume.write("a", 0, bytes([number]))
                with self.assertRaises(famsync.InTransaction), transaction:
                    self.fail("this block isn't reached")

        @volume.transaction()
        def change(number):
            volume.write("b", 0, bytes([number]))

        change(3)
        self.assertEqual(volume.acknowledged, 3)
        volume.close()
        self.assertRaises(ValueError, volume.transaction)
        self.assertRaises(ValueError, transaction.__enter__)
        self.assertEqual(self.found(), (2, 3))

    def test_a_session_that_only_reads(self):
        with self.opened(readonly=True) as volume:
            with self.assertRaises(famsync.ReadOnly), volume.transaction():
                self.fail("this block isn't reached")


class Interrupted(InAFolder):
    """What a program does that handles an interrupt, and goes on."""

    pages, files = 15, ("a=20000/40000", "b=5000")

    def setUp(self):
        super().setUp()
        self.addCleanup(setattr, sys, "unraisablehook", sys.unraisablehook)
        sys.unraisablehook = lambda raised: None  # an interrupt in a __del__
        if os.path.isdir("/dev/shm"):  # where no sync takes time
            folder = tempfile.TemporaryDirectory(prefix="famsync-", dir="/dev/shm")
            self.addCleanup(folder.cleanup)
            os.chdir(folder.name)
            self.make(self.pages, *self.files, layout=self.layout)

    def change(self, volume, number, fails):
        with volume.transaction():
            volume.write("a", 0, bytes([number]))
            volume.set_length("a", 20000 + number)
            memory = volume.memory("b")
            memory[0] = number
            if fails:
                raise ZeroDivisionError

    def goes_on(self, volume, number, message):
        """Commits, or rolls back first if it has to. Returns whether the transaction with this number is there."""
        try:
            volume.commit()
        except Refused:
            volume.rollback()
            volume.commit()
        with volume.transaction():
            volume.write("b", 4999, b"\1")
        volume.close()
        with famsync.open("v.img") as volume:
            found = volume.read("a", 0, 1)[0], volume.read("b", 0, 1)[0], volume.files["a"], volume.read("b", 4999)
        self.assertIn(found, ((0, 0, 20000, b"\1"), (number, number, 20000 + number, b"\1")), message)
        return found[0] == number

    def at_step(self, step, fails):
        """Interrupts a transaction at a step, counted from 0. Returns whether the step was reached, and whether the
        transaction is there afterwards."""
        volume, left = famsync.open("v.img", foreground=True), [step]

        def trace(frame, event, argument):
            if os.path.dirname(frame.f_code.co_filename) != FOLDER and frame.f_code is not CHANGE or left[0] < 0:
                return None
            frame.f_trace_opcodes = True
            if event in ("call", "opcode"):
                left[0] -= 1
                if left[0] < 0:
                    raise KeyboardInterrupt
            return trace

        with suppress(KeyboardInterrupt, ZeroDivisionError):
            sys.settrace(trace)
            try:
                self.change(volume, 1, fails)
            finally:
                sys.settrace(None)
        return left[0] < 0, self.goes_on(volume, 1, f"step {step}")

    def test_at_each_step(self):
        for fails in (False, True):
            there = {False: 0, True: 0}
            step, came = 0, True
            while came:
                self.make(self.pages, *self.files, layout=self.layout)
                came, is_there = self.at_step(step, fails)
                there[is_there] += 1
                step += 1 if os.environ.get("STEPS") == "all" else random.randint(1, 9)
            self.assertGreater(there[False], 20)
            self.assertEqual(there[True] > 0, not fails)

    def test_at_random_moments(self):
        self.addCleanup(signal.signal, signal.SIGALRM, signal.signal(signal.SIGALRM, signal.default_int_handler))
        began = time.monotonic()
        with famsync.open("v.img", foreground=True) as volume:
            self.change(volume, 1, False)
        there, most = 0, max(0.002, 4 * (time.monotonic() - began))
        for turn in range(SIGNALS):
            self.make(self.pages, *self.files, layout=self.layout)
            volume, number = famsync.open("v.img", foreground=True), turn % 250 + 1
            with suppress(KeyboardInterrupt, ZeroDivisionError):
                try:
                    signal.setitimer(signal.ITIMER_REAL, random.uniform(1e-6, most))
                    for _ in range(100):
                        self.change(volume, number, turn % 4 == 3)
                finally:
                    signal.setitimer(signal.ITIMER_REAL, 0)
            there += self.goes_on(volume, number, f"turn {turn}")
        self.assertGreater(there, 0)


CHANGE = Interrupted.change.__code__


if __name__ == "__main__":
    unittest.main()
