"""Threads: commits that are shared, stores meanwhile, and a session that is ended under them."""

import sys
import threading
import time
import unittest

from support import PAGE, InAFolder, famsync, run_python

THREADS = 4
ROUNDS = 30


def together(*works):
    """What threads answered, or the first thing that one raised."""
    answers, raised = {}, []

    def run(number, work):
        try:
            answers[number] = work()
        except BaseException as error:
            raised.append(error)

    threads = [threading.Thread(target=run, args=one) for one in enumerate(works)]
    for thread in threads:
        thread.start()
    for thread in threads:
        thread.join(60)
    if raised:
        raise raised[0]
    return [answers[number] for number in range(len(works))]


LENGTHS_BESIDE_MEMORY = """
import sys, threading, time, famsync

end, used = time.monotonic() + 2, 0
volume = famsync.open("v.img")

def use():
    global used
    while time.monotonic() < end:
        try:
            with volume.memory("a") as memory:
                for _ in range(3):
                    memory[len(memory) - 1] = 1
                    time.sleep(0)
                used += 1
        except (famsync.Overlap, ValueError):  # a rollback may close it at any time
            pass

def set_lengths():
    for turn in range(sys.maxsize):
        if time.monotonic() > end:
            break
        try:
            volume.set_length("a", 100 if turn % 2 else 65536)
            if sys.argv[1:] == ["back"]:
                volume.rollback()
            elif turn % 50 == 0:
                volume.commit()
        except (famsync.Busy, BufferError):
            pass

thread = threading.Thread(target=use)
thread.start()
set_lengths()
thread.join()
print("used" if used > 0 else "not used")
"""


class Threads(InAFolder):
    pages, files = 64, ("a=131072", "b=8192")

    def test_commits(self):
        volume = self.opened()
        memory = volume.memory("a")

        def work(number):
            marks = []
            for turn in range(1, ROUNDS + 1):
                memory[number * PAGE : number * PAGE + 8] = turn.to_bytes(8, "little")
                volume.write("b", 8 * number, turn.to_bytes(8, "little"))
                marks.append(volume.commit())
                self.assertGreaterEqual(volume.acknowledged, marks[-1])
            return marks

        for marks in together(*[lambda number=number: work(number) for number in range(THREADS)]):
            self.assertEqual(marks, sorted(set(marks)))
        self.assertLessEqual(volume.acknowledged, THREADS * ROUNDS)
        volume.close()
        with famsync.open("v.img") as volume:
            for number in range(THREADS):
                self.assertEqual(int.from_bytes(volume.read("a", number * PAGE, 8), "little"), ROUNDS)
                self.assertEqual(int.from_bytes(volume.read("b", 8 * number, 8), "little"), ROUNDS)

    def test_stores_while_others_commit(self):
        """A commit has each store that came before one moment, and none that came after it: a thread stores the same
        number to one page after the other, so that no page that is found is ahead of one before it."""
        volume = self.opened()
        memory, done = volume.memory("a"), threading.Event()
        pages = range(0, 131072, PAGE)

        def store():
            number = 0
            while not done.is_set():
                number += 1
                for page in pages:
                    memory[page : page + 8] = number.to_bytes(8, "little")
            return number

        def commit():
            marks = [volume.commit() for _ in range(ROUNDS)]
            done.set()
            return marks[-1]

        self.assertEqual(together(store, commit)[1], ROUNDS)
        volume.close()
        with famsync.open("v.img") as volume:
            found = volume.read("a")
            numbers = [int.from_bytes(found[page : page + 8], "little") for page in pages]
        self.assertEqual(numbers, sorted(numbers, reverse=True))
        self.assertLessEqual(numbers[0] - numbers[-1], 1)

    def test_close_waits_for_a_call(self):
        volume = self.opened()
        within, ends, waited = threading.Event(), threading.Event(), []

        def call():
            volume._session.call(lambda handle: (within.set(), ends.wait(60)))

        def close():
            within.wait(60)
            volume.close()
            waited.append(ends.is_set())

        def end():
            within.wait(60)
            time.sleep(0.1)
            ends.set()

        together(call, close, end)
        self.assertEqual(waited, [True])

    def test_close_under_load(self):
        for _ in range(20):
            volume = self.opened()
            memory = volume.memory("a")
            begun = threading.Event()

            def commit():
                try:
                    while True:
                        with memoryview(b"12345678") as value:
                            memory[0:8] = value
                        volume.commit()
                        begun.set()
                except ValueError as error:
                    return str(error)

            def close():
                begun.wait(60)
                while True:
                    try:
                        return volume.close()
                    except BufferError:  # one of the stores was being made
                        time.sleep(0.001)

            for said in together(commit, commit, close)[:2]:
                self.assertRegex(said, "closed|released")

    def test_close_by_several(self):
        for _ in range(20):
            volume = self.opened()
            volume.write("a", 0, b"1")
            volume.commit()
            together(*[volume.close] * THREADS)
            self.assertRaises(ValueError, volume.commit)

    def test_memories_of_several(self):
        """Threads open memory of files of their own, and drop it, again and again; then the volume can be closed."""
        self.make(16, *[f"f{number}=8192" for number in range(THREADS)])
        volume = self.opened()

        def work(number):
            for _ in range(50):
                with volume.memory(f"f{number}") as memory:
                    memory[0] = 1
                volume.memory(f"f{number}")[1] = 1

        together(*[lambda number=number: work(number) for number in range(THREADS)])
        volume.close()
        famsync.open("v.img").close()

    def test_lengths_beside_memory(self):
        """One thread sets and undoes lengths, and another one uses the last byte of memory that it opens: the length of
        open memory stays, or this process of its own dies of a store past the end."""
        self.make(59, "a=65536/65536", "b=8192")
        for rolls_back in (False, True):
            ran = run_python(LENGTHS_BESIDE_MEMORY, "back" if rolls_back else "")
            self.assertEqual((ran.returncode, ran.stdout, ran.stderr), (0, "used\n", ""))

    def test_close_from_within_a_call(self):
        volume = self.opened()
        with self.assertRaises(RuntimeError):
            volume._session.call(lambda handle: volume.close())
        self.assertEqual(volume.commit(), 1)

    def test_python_runs_while_a_commit_waits(self):
        """A commit gives up the interpreter's lock, which no thread is asked for here: another one counts meanwhile."""
        self.addCleanup(sys.setswitchinterval, sys.getswitchinterval())
        sys.setswitchinterval(1000)
        volume = self.opened()
        memory, done, counted, meanwhile = volume.memory("a"), threading.Event(), [], []

        def count():
            while not done.is_set():
                counted.append(1)
                time.sleep(0)

        def commit():
            for _ in range(50):
                memory[0] = (memory[0] + 1) % 256
                before = len(counted)
                volume.commit()
                meanwhile.append(len(counted) - before)
            done.set()

        together(count, commit)
        self.assertGreater(sum(meanwhile), 0)


if __name__ == "__main__":
    unittest.main()
