"""Closed standard streams, several processes on one volume, and paths of no regular file."""

import itertools
import json
import os
import signal
import socket
import threading

from files.program import (
    COMMANDS, NEWER, OLD, OTHER, READERS, SHAPE, TO_OTHER, bytes_of, clear, commit_of, complains, ended, famsync, has,
    start, stopped, volume, write, write_image,
)
from lib.processes import want


def closed_descriptors():
    for name, (words, after) in COMMANDS.items():
        for closed in itertools.chain.from_iterable(itertools.combinations(range(3), n) for n in range(1, 4)):
            volume()
            ended_so = famsync(*words, closed=closed)
            if 1 in closed:
                want(ended_so.status == 3, f"{name} whose output is lost doesn't end well", closed, ended_so)
            else:
                want(ended_so.status == 0, f"{name} ends well", closed, ended_so)
            has(*([OLD] if name in READERS else [OLD, after] if 1 in closed else [after]))
            want(not os.path.exists("v.img.new"), "no other file is left")
    for closed in [(0,), (0, 1, 2)]:
        clear()
        famsync("format", "v.img", "4", "a=5000", "b=4096", closed=closed)
        has("a 5000\nb 4096\n")


# Rule: file lock
def two_processes():
    for first, second in itertools.product(["format", "run"], COMMANDS):
        words, after = COMMANDS[first]
        for call in itertools.count(1):
            volume()
            process = stopped(words, call)
            if process is None:
                break
            before = bytes_of("v.img")
            other = famsync(*COMMANDS[second][0])
            # Once the new file has its name, its own lock counts.
            complains(other, "in use by another process")
            want(not os.path.exists("a.copy"), "no copy is made")
            want(bytes_of("v.img") == before, "nothing is touched", first, second, call)
            os.kill(process.pid, signal.SIGCONT)
            want(ended(process).status == 0, "the first goes on", first, second, call)
            has(after)
            volume()
            want(famsync(*COMMANDS[second][0]).status == 0, "the lock is gone", second)
        want(call > 3, "calls were tried", first, call)
    # A dump holds its lock while it prints.
    clear()
    write_image("v.img", 1 << 20, b"\x01" * (1 << 20))
    for second in COMMANDS:
        process = start(["dump", "v.img"])
        want(process.stdout.read(10) == b"c 1048576\n", "a dump begins")
        other = famsync(*COMMANDS[second][0])
        if second == "export":
            complains(other, 'it has no file "a"')
        elif second in READERS:
            want(other.status == 0, "two may read", second, other)
        else:
            complains(other, "in use by another process")
        want(ended(process).status == 0, "the dump goes on")


def other_kinds():
    volume()
    os.mkfifo("pipe")
    os.mkdir("folder")
    place = socket.socket(socket.AF_UNIX)
    place.bind("socket")
    kinds = {"/dev/null": "a character device", "folder": "a folder", "pipe": "a pipe", "socket": "a socket"}
    for path, kind in kinds.items():
        reads = (["dump", path], ["info", path], ["check", path], ["export", path, "a", "a.copy"])
        for words in (["format", path, "4", "a=1"], ["run", path, "newer.json"], *reads):
            complains(famsync(*words), path, f"it is {kind}, but a volume must be a regular file")
        want(not os.path.exists(f"{path}.new"), "no file is made", path)
    place.close()
    # A link is followed, and stays one.
    os.mkdir("away")
    os.rename("v.img", "away/v.img")
    os.symlink("away/v.img", "v.img")
    want(famsync("run", "v.img", "newer.json").status == 0, "a run through a link")
    has(NEWER)
    want(famsync(*TO_OTHER).status == 0, "a format through a link")
    has(OTHER)
    want(os.path.islink("v.img") and famsync("dump", "away/v.img").out == OTHER, "the link leads to the new volume")
    want(sorted(os.listdir("away")) == ["v.img"], "and nothing else is there", os.listdir("away"))
    # A file with two names is only read.
    volume()
    os.link("v.img", "link.img")
    for words in (COMMANDS["format"][0], COMMANDS["run"][0]):
        complains(famsync(*words), "the file has 2 names (hard links), but a file to be written must have only one")
    has(OLD)
    # A link that leads nowhere.
    clear()
    os.symlink("nowhere/v.img", "v.img")
    for words, _ in COMMANDS.values():
        complains(famsync(*words), "v.img")
    clear()
    # A script may be a pipe.
    volume()
    feeder = threading.Thread(target=lambda: write("pipe", json.dumps({**SHAPE, "steps": commit_of(66)})))
    feeder.start()
    want(famsync("run", "v.img", "pipe").status == 0, "a script from a pipe")
    feeder.join()
    has(NEWER)
