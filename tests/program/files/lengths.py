"""Files that grow, and a large volume."""

import json
import os

from files.program import (
    EXPORT, START, bytes_of, calls_of, clear, dumped, famsync, has, migrating, start, write, write_image,
)
from lib.processes import want

# A file of 5,000 bytes gets 4,000 more, on two processors, the last of them 7.
GROWS = START[:2] + [[0, "switch", 1, "drop"], [1, "switch", 1, "drop"], [0, "fix", 8192, "read"]]
GROWS += [[0, "setlength", 0, 9000], [1, "ack"], [0, "change"], [1, "resume"]]
SHORT, LONG = "a 5000\nb 4096\n", "a 9000\n000000002320" + " 00" * 7 + " 07\nb 4096\n"


def growing_volume(layout):
    clear()
    made = famsync("format", "--layout", layout, "v.img", "4", "a=5000/12288", "b=4096")
    blocks = {"3": 18, "4": 30}[layout]
    want((made.status, made.out) == (0, f"formatted {blocks} blocks\n"), "a volume whose file may grow", made)


def lengths():
    for layout in "34":
        lengths_in(layout)


def lengths_in(layout):
    """A file grows: of a run that is killed at a call the length is the old one or the new one, with its bytes; and
    what threads do with it is a trace that is run again."""
    shape = {"cpus": 2, "tlb": 8, "frames": 3, "copies": 0}
    stored = GROWS + [[0, "fix", 12288, "write"], [0, "store", 13095, [7]]]
    stored += [[0, "msync", 0, 0, 4], [1, "ack"], [0, "change"]]
    write("grows.json", json.dumps({**shape, "steps": stored + [[0, "flush"]] * 13}))
    words, found = ["run", "v.img", "grows.json"], []
    growing_volume(layout)
    for call in range(1, calls_of(words) + 2):
        growing_volume(layout)
        ran = famsync(*words, fault=f"kill:{call}")
        found.append(has(SHORT, LONG))
        want(found[-1] == 1 or "committed" not in ran.out, "an acknowledged length is there", call, ran)
    want(found == sorted(found) and set(found) == {0, 1}, "the old length up to a call, and then the new one", found)
    want(famsync(*EXPORT).status == 0 and bytes_of("a.copy") == bytes(8999) + b"\x07", "its length is exported")
    want(famsync(*migrating(layout)).status == 0 and dumped("w.img") == LONG, "the length goes over")
    # The steps of a script of threads, and those of its trace.
    programs = [[["store", 13095, [7]], ["msync", 0, 0, 4]], [["await", 13095, 7], ["load", 9096, 1]]]
    write("threads.json", json.dumps({**shape, "trace": 1000, "steps": GROWS, "programs": programs}))
    growing_volume(layout)
    before = bytes_of("v.img")
    ran = famsync("threads", "v.img", "threads.json")
    entries = ran.out.splitlines()[1:]
    for entry in ('[[0,"setlength",0,9000],"begun"]', '[[0,"change"],"resized"]', '[[0,"change"],"marked 1"]'):
        want(ran.status == 0 and entry in entries, "threads go on with the new length", entry, ran)
    has(LONG)
    write("grown.trace", ran.out)
    with open("v.img", "wb") as file:
        file.write(before)
    again = famsync("replay", "v.img", "grown.trace")
    want((again.status, again.out) == (0, f"same {len(entries)}\n"), "the trace is run again", again)
    write("grown.trace", ran.out.replace("setlength\",0,9000", "setlength\",0,5000"))
    again = famsync("replay", "v.img", "grown.trace")
    differs = 1 + entries.index('[[0,"setlength",0,9000],"begun"]')
    want((again.status, again.out) == (1, f"differs at {differs}\n"), "the same length begins nothing", again)


def a_great_volume():
    """A volume of 1 GiB with an open journal is dumped in less than 64 MiB."""
    clear()
    write_image("v.img", 1 << 30, gate=0xA7)
    before = os.stat("v.img").st_mtime_ns
    process = start(["dump", "v.img"])
    out = process.stdout.read()
    _, status, used = os.wait4(process.pid, 0)
    process.returncode = os.waitstatus_to_exitcode(status)
    err = process.stderr.read()
    want(process.returncode == 0, "it is dumped", process.returncode, err)
    row = " 2a" * 16
    rows = "".join(f"{at:012x}{row}\n" for at in range(0, 4 * 4096, 16))
    want(out.decode() == f"c {1 << 30}\n{rows}", "with what the journal has", out[:200])
    want(used.ru_maxrss < 64 * 1024, "in less than 64 MiB", used.ru_maxrss)
    want(os.stat("v.img").st_mtime_ns == before, "and isn't written to")
    print(f"a volume of 1 GiB: {used.ru_maxrss} KiB of memory", flush=True)
