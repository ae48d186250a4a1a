"""Outputs that fail: a file at its limit, a full device, a pipe that nobody reads. A run stops with its output."""

import os
import signal

from files.program import ended, start, write
from cases.images import (
    COMMITTED, FIRST_REPLIES, FIRST_SCRIPT, WRITTEN_HOME, image_of_one, makes_volume,
)
from cases.trial import agree, complained, holds, leaves, prints, same_bytes, words_of

# The greatest length of a file. An output that begins N bytes below it has room for N bytes.
LARGEST = 1 << 30


def run_with_room(line, room):
    """A run whose output has room for ROOM bytes. Returns how it ended, and what was printed."""
    with open("printed", "wb", buffering=0) as out:
        out.seek(LARGEST - room)
        ran = ended(start(words_of(line), limit=LARGEST, ignored=[signal.SIGXFSZ], out=out))
    with open("printed", "rb") as file:
        file.seek(LARGEST - room)
        printed = file.read()
    os.remove("printed")
    return ran, printed


def is_cut_off(line, room, printed):
    """A run whose output has room for these bytes and no more prints them, and reports that as a fault."""
    ran, came = run_with_room(line, room)
    yield from same_bytes(f"{line}: what is printed", printed, came)
    yield from complained(line, ran, 3, "output: ")


def a_full_output_is_a_fault():
    """The volume is made all the same."""
    line = "format|full_output.img|4|a=1"
    yield from is_cut_off(line, 5, b"forma")
    yield from prints("dump|full_output.img", 0, "a 1\n")
    yield from leaves("full_output.img")


def a_full_device_is_a_fault():
    line = "format|full_device.img|4|a=1"
    with open("/dev/full", "wb", buffering=0) as full:
        ran = ended(start(words_of(line), out=full))
    yield from complained(line, ran, 3, "output: ")
    yield from prints("dump|full_device.img", 0, "a 1\n")
    yield from leaves("full_device.img")


def a_closed_pipe_is_a_fault():
    """Where the signal of it is ignored."""
    line = "format|closed_pipe.img|4|a=1"
    reader, writer = os.pipe()
    os.close(reader)
    ran = ended(start(words_of(line), ignored=[signal.SIGPIPE], out=writer))
    os.close(writer)
    yield from complained(line, ran, 3, "output: ")
    yield from prints("dump|closed_pipe.img", 0, "a 1\n")
    yield from leaves("closed_pipe.img")


# The replies of the first script that are flushed, and what the step of each left: `going` comes with the next line
# that is another.
FLUSHED = [
    ("space 1\n", []),
    ("mapped\n", []),
    ("switched\n", []),
    ("fault 6\n", []),
    ("fixed\n", []),
    ("stored\n", []),
    ("begun\n", []),
    ("marked 1\n", []),
    ("going\ngoing\ngoing\ngoing\ncommitted 1\n", COMMITTED),
    ("going\ngoing\ngoing\ndone 1\n", WRITTEN_HOME),
]


def a_run_stops_with_its_output():
    """There is room for the replies up to one of them, and two bytes more. The step of the next one was made, and none
    after it."""
    write("stops.json", FIRST_SCRIPT)
    yield from agree("the replies", FIRST_REPLIES, "".join(lines for lines, _ in FLUSHED))
    room = 2
    for lines, changes in FLUSHED:
        yield from makes_volume("stops.img")
        yield from is_cut_off("run|stops.img|stops.json", room, FIRST_REPLIES[:room].encode())
        yield from holds("stops.img", image_of_one(changes))
        room += len(lines)
    yield from leaves("stops.img", "stops.json")


# A commit of this number of pages. Its steps are answered by more lines `going` than are kept for the next line.
PAGES = 2000
SLOTS = PAGES + 1

# The first journal's gate is in block 1, its descriptor in blocks 2 and 3, and its records follow.
FIRST_RECORD = 4


def script_of_a_great_commit():
    steps = ['[0,"create"]', f'[0,"map",1,4096,{4096 * PAGES},0,0,"rw","rw"]', '[0,"switch",1,"drop"]']
    for page in range(1, PAGES + 1):
        steps += [f'[0,"fix",{4096 * page},"write"]', f'[0,"store",{4096 * page},[7]]']
    steps += [f'[0,"msync",4096,{4096 * PAGES},4]', '[0,"change"]'] + ['[0,"flush"]'] * (2 * PAGES + 7)
    return f'{{"cpus":1,"tlb":8,"frames":{PAGES},"copies":0,"steps":[{",".join(steps)}]}}'


def records_in(path):
    """How many records of the first journal are written, one after the other, and whether all else after the super
    block and before the pages of the file is zeros."""
    with open(path, "rb") as file:
        blocks = [file.read(4096) for _ in range(FIRST_RECORD + SLOTS)][1:]
    gate_and_descriptor, records = blocks[: FIRST_RECORD - 1], blocks[FIRST_RECORD - 1 :]
    record = b"\x07" + bytes(4095)
    written = next((i for i, block in enumerate(records) if block != record), len(records))
    return written, not any(map(any, gate_and_descriptor + records[written:]))


def a_run_stops_with_a_going():
    """The output fails at a `going` in the middle of a commit: records were written up to that step, and no later one,
    nor the descriptor and the gate."""
    make = f"format|--layout|4|great.img|{SLOTS}|a={4096 * PAGES}"
    yield from prints(make, 0, f"formatted {blocks_of_great()} blocks\n")
    write("great.json", script_of_a_great_commit())
    before = "space 1\nmapped\nswitched\n" + "fixed\nstored\n" * PAGES + "begun\nmarked 1\n"
    room = len(before) + 3
    yield from is_cut_off("run|great.img|great.json", room, f"{before}goi".encode())
    written, others_are_zeros = records_in("great.img")
    yield from agree(f"{written} records are written, some and not all", True, 0 < written < PAGES)
    yield from agree("what is after them is zeros", True, others_are_zeros)
    yield from prints("dump|great.img", 0, f"a {4096 * PAGES}\n")
    yield from leaves("great.img", "great.json")


def blocks_of_great():
    """The super block, four journals of a gate, a descriptor of two blocks and records, the lengths, and the pages."""
    return 1 + 4 * (3 + SLOTS) + 1 + PAGES


GROUPS = [
    a_full_output_is_a_fault,
    a_full_device_is_a_fault,
    a_closed_pipe_is_a_fault,
    a_run_stops_with_its_output,
    a_run_stops_with_a_going,
]
