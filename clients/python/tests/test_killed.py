"""The banks of bank.py, and of transfers.py, whose transfers are transactions, are killed at random moments: the sum is
0 after each, and each transfer that was acknowledged is there; every fifth time they are interrupted, as from a
terminal. KILLS in the environment says how often: 25 where it isn't set."""

import os
import random
import re
import signal
import struct
import subprocess
import sys
import time
import unittest

from support import HERE, PACKAGE, InAFolder, famsync

KILLS = int(os.environ.get("KILLS", "25"))


def interruptible():
    """In a child: SIGINT does what it does at a terminal, also where whoever runs the tests has it ignored."""
    signal.signal(signal.SIGINT, signal.SIG_DFL)


class Killed(InAFolder):
    files = ("bank=16384",)
    bank = [sys.executable, f"{PACKAGE}/bank.py", "v.img"]

    def ended(self, wait, number):
        """The last transfer that a bank acknowledges which gets a signal after a while."""
        pipes = {"stdout": subprocess.PIPE, "stderr": subprocess.PIPE, "text": True}
        with subprocess.Popen(self.bank, preexec_fn=interruptible, **pipes) as bank:
            first = bank.stdout.readline()
            time.sleep(wait)
            self.assertIsNone(bank.poll(), "it ended by itself")
            bank.send_signal(number)
            acknowledged = re.findall(r"^acknowledged (\d+)\n", first + bank.stdout.read(), flags=re.MULTILINE)
            said = bank.stderr.read()
            self.assertEqual(said.splitlines()[-1:], ["KeyboardInterrupt"] if number == signal.SIGINT else [])
        return int(acknowledged[-1])

    def found(self):
        """How many transfers there are, where the sum is 0."""
        with famsync.open("v.img") as volume, volume.memory("bank") as bank:
            numbers = struct.unpack("2048q", bank[:])
        self.assertEqual(sum(numbers[1:]), 0)
        return numbers[0]

    def checked(self):
        checked = subprocess.run([*self.bank, "--check"], capture_output=True, text=True, timeout=60)
        return checked.returncode, checked.stdout

    def test_the_sum_is_kept(self):
        found = 0
        for turn in range(KILLS):
            known = self.ended(random.uniform(0, 0.1), signal.SIGINT if turn % 5 == 4 else signal.SIGKILL)
            found = self.found()
            self.assertIn(found, (known, known + 1))
        self.assertEqual(self.checked(), (0, f"sum 0, {found} transfers\n"))

    def test_a_sum_that_is_not_0_is_reported(self):
        subprocess.run([*self.bank, "3"], check=True, capture_output=True, timeout=60)
        self.assertEqual(self.checked(), (0, "sum 0, 3 transfers\n"))
        with open("v.img", "r+b") as file:
            file.seek(-8192, os.SEEK_END)
            file.write(b"\1")
        self.assertEqual(self.checked(), (1, "sum 1, 3 transfers\n"))


class KilledInTransactions(Killed):
    bank = [sys.executable, f"{HERE}/transfers.py", "v.img"]


if __name__ == "__main__":
    unittest.main()
