"""What the cases share: runs of the program in the folder of a test, and checks, which return faults as lines."""

import os

from files.program import bytes_of, famsync

# What is in the folder beside the files of a test: the library that makes calls fail, and its count of them.
BESIDE = {"faults.so", "count"}

# How much of a text is shown where another one was wanted.
SHOWN = 600


def agree(what, wanted, came):
    return [] if wanted == came else [f"{what!r}: wanted {wanted!r:.{SHOWN}}, came {came!r:.{SHOWN}}"]


def words_of(line):
    """The words of a command line after the program's name, parted by `|`."""
    return line.split("|") if line else []


def run(line):
    return famsync(*words_of(line))


def ended_so(what, ran, status, out="", err=""):
    """A run ended with this status and printed these texts, and nothing else."""
    return agree(what, (status, out, err), (ran.status, ran.out, ran.err))


def prints(line, status, out="", err=""):
    return ended_so(line, run(line), status, out, err)


def complained(what, ran, status, cause):
    """A run ended with this status, printed nothing, and said one line that begins with this after the program's
    name."""
    begin = f"famsync: {cause}"
    said = (ran.err[: len(begin)], ran.err.count("\n"), ran.err[-1:])
    return agree(what, (status, "", (begin, 1, "\n")), (ran.status, ran.out, said))


def complains(line, status, cause):
    return complained(line, run(line), status, cause)


def shows(line, text):
    """A run ends well, and prints a text with this in it."""
    ran = run(line)
    found = text if text in ran.out else ran.out
    return agree(line, (0, text, ""), (ran.status, found, ran.err))


def write_bytes(path, content):
    with open(path, "wb") as file:
        file.write(content)


def first_difference(one, other):
    return next((at for at, pair in enumerate(zip(one, other)) if pair[0] != pair[1]), min(len(one), len(other)))


def same_bytes(what, wanted, came):
    """Two texts of bytes are the same; else the fault shows where they begin to differ."""
    if wanted == came:
        return []
    at = first_difference(wanted, came)
    return agree(f"{what} at {at}", (len(wanted), wanted[at : at + 16]), (len(came), came[at : at + 16]))


def holds(path, wanted):
    """A file has these bytes."""
    return same_bytes(path, wanted, bytes_of(path)) if os.path.isfile(path) else [f"{path} isn't there"]


def leaves(*names):
    """These files are in the folder, and no others."""
    return agree("the files that are there", sorted(names), sorted(set(os.listdir(".")) - BESIDE))


def clear():
    """Removes the files of a test."""
    for name in set(os.listdir(".")) - BESIDE:
        os.remove(name)
