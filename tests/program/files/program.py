"""What the groups share: the program with a fault, in a folder of its own, and a volume there."""

import errno
import itertools
import os
import resource
import signal
import struct
import subprocess
import sys

from lib.processes import built_program, counted, faulty, want

PROGRAM = built_program(*sys.argv[1:2])

SHAPE = {"cpus": 1, "tlb": 8, "frames": 4, "copies": 0}
START = [[0, "create"], [0, "map", 1, 4096, 12288, 0, 0, "rw", "rw"], [0, "switch", 1, "drop"]]
MARK = [[0, "msync", 4096, 4096, 4], [0, "change"]]


def commit_of(byte):
    """The steps that store a byte at the begin of file a, and commit it and write it home."""
    store = [[0, "store", 4096, [byte]], [0, "fix", 4096, "write"], [0, "store", 4096, [byte]]]
    return START + store + MARK + [[0, "flush"]] * 9


REPLIES = ["space 1", "mapped", "switched", "fault 6", "fixed", "stored", "begun", "marked 1"]
REPLIES += ["going"] * 4 + ["committed 1"] + ["going"] * 3 + ["done 1"]


def dump_of(byte):
    return f"a 5000\n000000000000 {byte:02x}" + " 00" * 15 + "\nb 4096\n"


OLD, NEWER, OTHER = dump_of(65), dump_of(66), "c 100\n"
TO_OTHER = ["format", "v.img", "2", "c=100"]


class Outcome:
    def __init__(self, status, out, err):
        self.status, self.out, self.err = status, out, err

    def __repr__(self):
        return f"status {self.status}, out {self.out[-200:]!r}, err {self.err!r}"


def start(
    words, fault=None, only=None, closed=(), limit=None, memory=None, ignored=(), out=subprocess.PIPE,
    input=subprocess.DEVNULL,
):
    """Starts the program in the folder of this test."""
    def prepare():
        for descriptor in closed:
            os.close(descriptor)
        for number in ignored:
            signal.signal(number, signal.SIG_IGN)
        if limit is not None:
            resource.setrlimit(resource.RLIMIT_FSIZE, (limit, limit))
        if memory is not None:
            resource.setrlimit(resource.RLIMIT_AS, (memory, memory))

    return subprocess.Popen(
        ["famsync", *words], executable=PROGRAM, stdin=input, stdout=out, stderr=subprocess.PIPE,
        env=faulty(fault, only) if fault else None, preexec_fn=prepare,
    )


def ended(process):
    out, err = process.communicate(timeout=120)
    return Outcome(process.returncode, (out or b"").decode(), err.decode())


def famsync(*words, **how):
    return ended(start(words, **how))


def bytes_of(path):
    with open(path, "rb") as file:
        return file.read()


def write(path, text):
    with open(path, "w") as file:
        file.write(text)


def clear():
    for name in os.listdir("."):
        if name.startswith(("v.img", "w.img", "a.copy")) or name == "link.img":
            os.remove(name)


def volume():
    """Makes v.img anew, with the byte 65 committed."""
    clear()
    made = famsync("format", "v.img", "4", "a=5000", "b=4096")
    want(made.status == 0, "a volume is made", made)
    ran = famsync("run", "v.img", "old.json")
    want((ran.status, ran.out.split("\n")[:-1]) == (0, REPLIES), "and written to", ran)
    has(OLD)


def has(*dumps):
    """Whether the volume has one of these dumps, and which."""
    found = famsync("dump", "v.img")
    want(found.status == 0 and found.out in dumps, "the volume has its files", found, dumps)
    return dumps.index(found.out)


def complains(outcome, *parts, status=3):
    one_line = outcome.err.count("\n") == 1 and outcome.err.startswith("famsync: ")
    want(outcome.status == status and one_line, "one line and the status", status, outcome)
    for part in parts:
        want(part in outcome.err, f"the line says {part!r}", outcome)


def calls_of(words, only=None):
    """How many calls the program makes where none fails."""
    whole = famsync(*words, fault="none", only=only)
    want(whole.status == 0, "all calls succeed", words, whole)
    return counted()


def makes_whole_or_nothing(words, new, prepare, found, wanted, judge):
    """Each call of a command is killed, or fails, alone or with all later ones. What is found of the file that it makes
    is then what was there before or what is wanted; and after a kill at a later call it is never the older one."""
    prepare()
    calls, killed = calls_of(words), []
    for call, how in itertools.product(range(1, calls + 4), ("kill", "fail", "from")):
        prepare()
        before = found()
        over = famsync(*words, fault=f"{how}:{call}" + ("" if how == "kill" else f":{errno.EIO}"))
        for mark in filter(os.path.exists, ("v.img.suspect", f"{new}.suspect")):
            os.remove(mark)
        there = found()
        want(there in (before, wanted), f"{new} is what it was, or whole", call, how, over)
        judge(over)
        if over.status == 0:
            want(there == wanted and not os.path.exists(f"{new}.new"), "it is there", call, how)
        elif how != "kill":
            complains(over)
        if how == "kill":
            killed.append(there == wanted)
        if os.path.exists(f"{new}.new"):
            complains(famsync(*words), f'"{new}.new" already exists', "remove it")
            os.remove(f"{new}.new")
        want(famsync(*words).status == 0 and found() == wanted, "it can be made again", call, how)
    want(killed == sorted(killed) and set(killed) == {False, True}, "old up to a call, and then new", killed)


def refuses_its_own_volume(words):
    """A command of these words, for a volume and the file to make, doesn't make the volume's file, by whatever name."""
    os.link("v.img", "link.img")
    os.symlink("v.img", "v.img.link")
    for new in ("v.img", "./v.img", "link.img", "v.img.link", os.path.realpath("v.img")):
        complains(famsync(*words("v.img", new)), "it is the volume's file")
        complains(famsync(*words("link.img", new)), "it is the volume's file")
    os.remove("link.img")


EXPORT = ["export", "v.img", "a", "a.copy"]
COMMANDS = {
    "format": (TO_OTHER, OTHER),
    "run": (["run", "v.img", "newer.json"], NEWER),
    "dump": (["dump", "v.img"], OLD),
    "info": (["info", "v.img"], OLD),
    "check": (["check", "v.img"], OLD),
    "export": (EXPORT, OLD),
}
READERS = ("dump", "info", "check", "export")


def stopped(words, call, **how):
    """The program, stopped before this call, or None if it ended before."""
    process = start(words, fault=f"stop:{call}", **how)
    _, status = os.waitpid(process.pid, os.WUNTRACED)
    if os.WIFSTOPPED(status):
        return process
    process.returncode = os.waitstatus_to_exitcode(status)
    for pipe in filter(None, (process.stdout, process.stderr)):
        pipe.close()
    return None


MIGRATE = ["migrate", "v.img", "w.img", "2"]


def migrating(layout):
    """Gives the words by which a volume of this layout goes over: to layout 3, but of layout 4 to the same, since none
    becomes one of a lower layout."""
    return ["migrate", "--layout", "4", *MIGRATE[1:]] if layout == "4" else MIGRATE


def dumped(path):
    over = famsync("dump", path)
    want(over.status == 0, "a volume is opened", path, over)
    return over.out


def write_image(path, length, begin=b"", slots=4, gate=0):
    """A volume in layout 1 with a file c of this length that begins with these bytes. If its gate is open, the journal
    has records for as many pages as there are slots."""
    pages, home = (length + 4095) // 4096, 3 + slots
    super_block = b"FAMSYNC1" + struct.pack(">III", 1, slots, home + pages)
    super_block = super_block.ljust(32, b"\0") + b"c".ljust(32, b"\0") + struct.pack(">QII", length, home, pages)
    with open(path, "wb") as file:
        file.write(super_block)
        if gate:
            file.seek(4096)
            file.write(bytes([gate]))
            file.seek(8192)
            file.write(struct.pack(f">QII{slots}I", 1, slots, 0, *range(home, home + slots)))
            file.seek(3 * 4096)
            file.write(b"\x2a" * 4096 * slots)
        file.seek(home * 4096)
        file.write(begin)
        file.truncate((home + pages) * 4096)
