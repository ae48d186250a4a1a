"""Volumes and copies with holes, volumes whose blocks are taken at once, and the part of a copy that is done, as a
terminal shows it."""

import json
import os
import pty
import re
import subprocess

from files.program import PROGRAM, bytes_of, write
from cases.trial import agree, holds, leaves, prints, same_bytes, words_of

PAGES = 3_000

LENGTH = 4096 * PAGES - 1

# A store to a page in the middle of the file, committed and written home.
PAGE = 1_000
AT = 4096 * 7
STORES = [[0, "store", AT, [7]], [0, "fix", AT, "write"], [0, "store", AT, [7]]]
SCRIPT = {
    "cpus": 1, "tlb": 8, "frames": 4, "copies": 0,
    "steps": [[0, "create"], [0, "map", 1, AT, 4096, 0, 4096 * PAGE, "rw", "rw"], [0, "switch", 1, "drop"], *STORES,
              [0, "msync", AT, 4096, 4], [0, "change"], *[[0, "flush"]] * 9],
}

# More than the blocks that a commit writes, and less than the file has.
FEW = 1 << 20


def taken(path):
    """How many bytes of the disk a file takes."""
    return os.stat(path).st_blocks * 512


def takes_few(path):
    return agree(f"{path} takes few bytes of the disk", True, taken(path) < FEW)


def takes_all(path):
    return agree(f"{path} takes its bytes of the disk", True, taken(path) >= os.path.getsize(path))


def made(option, path, layout):
    slots = {"1": 7, "4": 26}[layout]
    line = f"format|--layout|{layout}{option}|{path}|4|a={LENGTH}"
    return prints(line, 0, f"formatted {slots + PAGES} blocks\n")


def blocks_are_holes_or_taken():
    """In a volume without and with a lengths block. Its bytes are the same."""
    for layout in "14":
        yield from made("", "holes.img", layout)
        yield from takes_few("holes.img")
        yield from made("|--preallocate", "taken.img", layout)
        yield from takes_all("taken.img")
        yield from same_bytes("the volumes", bytes_of("taken.img"), bytes_of("holes.img"))
        yield from prints("check|holes.img", 0, "clean\n")
        yield from prints("dump|holes.img", 0, f"a {LENGTH}\n")
    yield from leaves("holes.img", "taken.img")


def copies_have_holes():
    """What was stored is copied, and the zeros before and after it stay holes."""
    yield from made("", "holes.img", "1")
    write("holes.json", json.dumps(SCRIPT))
    yield from agree("its replies", 0, subprocess.run([PROGRAM, *words_of("run|holes.img|holes.json")],
                                                      stdout=subprocess.DEVNULL).returncode)
    yield from takes_few("holes.img")
    wanted = bytes(4096 * PAGE) + b"\7" + bytes(LENGTH - 4096 * PAGE - 1)
    yield from prints("export|holes.img|a|a.copy", 0, f"exported {LENGTH} bytes\n")
    yield from holds("a.copy", wanted)
    yield from takes_few("a.copy")
    for option, takes in (("", takes_few), ("|--preallocate", takes_all)):
        line = f"migrate|--layout|4{option}|holes.img|new.img|4"
        yield from prints(line, 0, f"migrated {26 + PAGES} blocks\n")
        yield from takes("new.img")
        yield from prints("export|new.img|a|a.copy", 0, f"exported {LENGTH} bytes\n")
        yield from holds("a.copy", wanted)
    yield from leaves("holes.img", "holes.json", "a.copy", "new.img")


def shown(line):
    """What a run writes to standard error, if that is a terminal, and to standard output, which is none."""
    ours, theirs = pty.openpty()
    process = subprocess.Popen([PROGRAM, *words_of(line)], stdin=subprocess.DEVNULL, stdout=subprocess.PIPE,
                               stderr=theirs)
    os.close(theirs)
    text = b""
    try:
        while part := os.read(ours, 65536):
            text += part
    except OSError:
        pass  # the end, once nobody has the terminal open
    os.close(ours)
    out, _ = process.communicate(timeout=120)
    return process.returncode, out.decode(), text.decode()


def terminals_show_the_part_that_is_done():
    """Rising percents on one line, which is taken away at the end. A short command shows nothing."""
    yield from made("", "holes.img", "1")
    cleared = "\r" + " " * 14 + "\r"
    for line, doing, done in (
        ("export|holes.img|a|a.copy", "exporting", f"exported {LENGTH} bytes\n"),
        ("migrate|holes.img|new.img|4", "migrating", f"migrated {14 + PAGES} blocks\n"),
    ):
        status, out, text = shown(line)
        yield from agree(line, (0, done), (status, out))
        yield from agree(f"{line}: the line", True, text.endswith(cleared))
        parts = re.findall(r"\r(\w+) (\d+)%", text)
        percents = [int(percent) for _, percent in parts]
        yield from agree(f"{line}: the word", {doing}, {word for word, _ in parts})
        yield from agree(f"{line}: no percent twice", sorted(set(percents)), percents)
        yield from agree(f"{line}: most percents", True, len(percents) > 50 and percents[-1] <= 100)
    status, out, text = shown("check|holes.img")
    yield from agree("a check", (0, "clean\n", ""), (status, out, text))
    yield from leaves("holes.img", "a.copy", "new.img")


GROUPS = [blocks_are_holes_or_taken, copies_have_holes, terminals_show_the_part_that_is_done]
