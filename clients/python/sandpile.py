#!/usr/bin/env python3
"""A sandpile: an array of NumPy in a file, whose changes are committed or rolled back as a whole.

usage: sandpile.py VOLUME [GRAINS]    drops grains, for ever without a number, and prints each that is acknowledged
       sandpile.py VOLUME --check     prints how many grains were dropped, lie and fell off; status 1 if that is wrong

The volume has a file `pile`: famsync format VOLUME pile=36864. Its first two numbers of 8 bytes count
the grains that were dropped and that fell off. From byte 4096 on there are 64 rows of 64 numbers: the grains of each
place. A place with four grains topples, and each of its neighbours gets one of them. If a grain sets off more than 500
topplings, all of that is rolled back, and the grain isn't dropped.
"""

from __future__ import annotations

import random
import sys
from typing import Any

import famsync
import numpy

SIDE, MOST = 64, 500


class TooLarge(Exception):
    """An avalanche that is rolled back."""


def fill(pile: Any, counts: Any) -> None:
    """The first grains, of which no place has four."""
    pile[:] = numpy.random.default_rng().integers(1, 4, pile.shape)
    counts[0] = pile.sum()


def topple(pile: Any, counts: Any) -> None:
    """Lets the pile come to rest."""
    topplings = 0
    while (tall := pile > 3).any():
        topplings += tall.sum()
        if topplings > MOST:
            raise TooLarge
        pile[tall] -= 4
        pile[1:][tall[:-1]] += 1
        pile[:-1][tall[1:]] += 1
        pile[:, 1:][tall[:, :-1]] += 1
        pile[:, :-1][tall[:, 1:]] += 1
        counts[1] += tall[0].sum() + tall[-1].sum() + tall[:, 0].sum() + tall[:, -1].sum()


def drop(volume: famsync.Volume, pile: Any, counts: Any) -> None:
    """Drops a grain at any place, with all that it sets off."""
    with volume.transaction():  # all of it or nothing
        counts[0] += 1
        pile[random.randrange(SIDE), random.randrange(SIDE)] += 1
        topple(pile, counts)


def check(pile: Any, counts: Any) -> int:
    print(f"{counts[0]} grains were dropped, {pile.sum()} lie, {counts[1]} fell off")
    return 0 if counts[0] == pile.sum() + counts[1] and (pile < 4).all() else 1


def run(volume: famsync.Volume, memory: famsync.Memory, words: list[str]) -> int:
    # As long as there is an array, the memory can't be closed: these two go as this function returns.
    counts = numpy.frombuffer(memory.view(), "<i8", 2)
    pile = numpy.frombuffer(memory.view(), "<i8", SIDE * SIDE, 4096).reshape(SIDE, SIDE)
    if words == ["--check"]:
        return check(pile, counts)
    if counts[0] == 0:
        with volume.transaction():
            fill(pile, counts)
    left = int(words[0]) if words else -1
    while left != 0:
        try:
            drop(volume, pile, counts)
        except TooLarge:
            continue
        print(f"acknowledged {counts[0]}", flush=True)
        left -= 1
    return 0


def main() -> int:
    path, *words = sys.argv[1:]
    with famsync.open(path) as volume, volume.memory("pile") as memory:
        return run(volume, memory, words)


if __name__ == "__main__":
    sys.exit(main())
