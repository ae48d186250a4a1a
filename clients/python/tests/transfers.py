#!/usr/bin/env python3
"""A bank in which each transfer is a transaction: one that overdraws an account fails halfway, and is undone.

usage: transfers.py VOLUME [TRANSFERS]    makes transfers, for ever without a number, and prints each acknowledged one
       transfers.py VOLUME --check        prints the sum and how many transfers were made; status 1 where the sum isn't
                                          0, or an account is overdrawn

The volume has a file `bank`, as that of bank.py.
"""

import random
import sys

from support import famsync

LEAST = -50  # that an account may have


class Overdrawn(Exception):
    pass


def transfer(volume, numbers):
    """Makes one transfer. Returns whether it was made."""
    source, target = random.sample(range(1, len(numbers)), 2)
    amount = random.randrange(1, 100)
    try:
        with volume.transaction():
            numbers[0] += 1
            numbers[source] -= amount
            if numbers[source] < LEAST:
                raise Overdrawn
            numbers[target] += amount
    except Overdrawn:
        return False
    print(f"acknowledged {numbers[0]}", flush=True)
    return True


def check(numbers):
    total = sum(numbers[1:])
    print(f"sum {total}, {numbers[0]} transfers")
    return 0 if total == 0 and min(numbers[1:]) >= LEAST else 1


def main():
    path, *rest = sys.argv[1:]
    with famsync.open(path) as volume, volume.memory("bank") as bank, bank.view() as view, view.cast("q") as numbers:
        if rest == ["--check"]:
            return check(numbers)
        left = int(rest[0]) if rest else -1
        while left != 0:
            left -= transfer(volume, numbers)
    return 0


if __name__ == "__main__":
    sys.exit(main())
