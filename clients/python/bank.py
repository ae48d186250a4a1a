#!/usr/bin/env python3
"""A bank whose accounts always have the sum 0, also where it is killed in the middle of a transfer.

usage: bank.py VOLUME [TRANSFERS]    makes transfers, for ever without a number, and prints each that is acknowledged
       bank.py VOLUME --check        prints the sum and how many transfers were made; status 1 where the sum isn't 0

The volume has a file `bank`: famsync format VOLUME bank=8192. Its first 8 bytes count the transfers,
each further 8 bytes are an account.
"""

from __future__ import annotations

import random
import sys

import famsync


def check(numbers: memoryview) -> int:
    total = sum(numbers[1:])
    print(f"sum {total}, {numbers[0]} transfers")
    return 0 if total == 0 else 1


def transfer(volume: famsync.Volume, numbers: memoryview) -> None:
    source, target = random.sample(range(1, len(numbers)), 2)
    amount = random.randrange(1, 100)
    numbers[0] += 1
    numbers[source] -= amount
    numbers[target] += amount
    volume.commit()  # all three or none
    print(f"acknowledged {numbers[0]}", flush=True)


def main() -> int:
    path, *rest = sys.argv[1:]
    with famsync.open(path) as volume, volume.memory("bank") as bank, bank.view() as view, view.cast("q") as numbers:
        if rest == ["--check"]:
            return check(numbers)
        left = int(rest[0]) if rest else -1
        while left != 0:
            transfer(volume, numbers)
            left -= 1
    return 0


if __name__ == "__main__":
    sys.exit(main())
