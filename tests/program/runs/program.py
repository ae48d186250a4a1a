"""The program in stored runs: its runs, with each device call, and its dumps."""

import hashlib
import json
import os
import re

from .disks import PAGE, Call, Tape
from .grammar import Differs, agree, agree_bytes

SMALLEST = {"cpus": 1, "tlb": 1, "frames": 1, "copies": 0}
EIO = 5
# The program reads the first block again, to print why it refused these. To print the limit of a shape, it may read it
# again, too.
EXPLAINED = ("notavolume", "damaged")
# The lines that record.c writes.
KINDS = {"R": "read", "W": "write", "S": "sync", "FR": "read", "FW": "write", "FS": "sync"}


class Made:
    """What a process has done: its status, what it printed, its device calls, and the bytes that it left.

    `printed` has the number of device calls before each write to the output, and the number of bytes that it wrote.
    `refusal` is why no machine was booted. `failed` is the number of the step whose failure is reported."""

    def __init__(self, status, out, said, calls, printed, left):
        self.status, self.out, self.said, self.calls, self.printed, self.left = status, out, said, calls, printed, left
        self.refusal = self.failed = None
        refused = re.match(r'famsync: (?:disk "[^"]*": )?([a-z]+)(?:: .*)?\n', said)
        failed = re.match(r'famsync: script "[^"]*": step ([0-9]+): the device failed(?:; a sync .*)?\n', said)
        if status == 3 and not out and refused:
            self.refusal = refused[1]
        elif status == 3 and failed:
            self.failed = int(failed[1])
        elif (status, said) != (0, ""):
            raise Differs(f"the program: wanted status 0, came status {status}: {said.strip():.300}")


class Kept:
    """Results for the bytes of disks, as far as they fit into memory."""

    MOST = 1 << 27

    def __init__(self):
        self.results, self.size = {}, 0

    @staticmethod
    def key(image, *more):
        return hashlib.blake2b(image, digest_size=16).digest(), *more

    def get(self, *of):
        return self.results.get(self.key(*of))

    def put(self, result, *of):
        self.size += 2 * len(of[0])
        if self.size > self.MOST:
            self.__init__()
        self.results[self.key(*of)] = result


class Program:
    """The program, in the working folder."""

    def __init__(self, path, tools):
        """`tools` is the folder with the built libraries."""
        self.path, self.tools = path, tools
        self.openings, self.dumps = Kept(), Kept()
        preloaded = f"{tools}/record.so {tools}/faults.so"
        self.environment = {"LD_PRELOAD": preloaded, "VOLUME": "v.img", "LOG": "log", "ALL": "1"}

    def execute(self, *words, **settings):
        """Its status, its output, and its standard error."""
        actions = [
            (os.POSIX_SPAWN_OPEN, 0, "/dev/null", os.O_RDONLY, 0),
            (os.POSIX_SPAWN_OPEN, 1, "out", os.O_WRONLY | os.O_CREAT | os.O_TRUNC, 0o600),
            (os.POSIX_SPAWN_OPEN, 2, "said", os.O_WRONLY | os.O_CREAT | os.O_TRUNC, 0o600),
        ]
        process = os.posix_spawn(self.path, [self.path, *words], settings, file_actions=actions)
        status = os.waitstatus_to_exitcode(os.waitpid(process, 0)[1])
        return status, content_of("out").decode(), content_of("said").decode()

    def format(self, *words):
        """The bytes of a new volume."""
        if os.path.exists("v.img"):
            os.unlink("v.img")
        status, _, said = self.execute("format", *words)
        agree("the volume", "one", "one" if status == 0 else said.strip())
        return content_of("v.img")

    @staticmethod
    def put_volume(image):
        write("v.img", image)

    def run(self, image, shape, steps, fails=0):
        """A run on these bytes, of which the device call of this number fails."""
        write("v.img", image)
        write("script", json.dumps(shape | {"steps": steps}).encode())
        write("log", b"")
        # The program syncs the file, and looks whether it is a log's. These aren't calls of the device.
        before = 2 if len(image) >= PAGE else 1
        fault = {"FAULT": f"fail:{fails + before}:{EIO}", "ONLY": "device", "SPOIL": "1"} if fails else {}
        words = ("run", "v.img", "script")
        status, out, said = self.execute(*words, **self.environment, **fault)
        if fails and os.path.exists("v.img.suspect"):
            os.unlink("v.img.suspect")
        calls, printed = calls_of(content_of("log"), before)
        made = Made(status, out, said, calls, printed, content_of("v.img"))
        if made.refusal in EXPLAINED and len(image) >= PAGE:
            agree("the last call of a refusal", "read 0 4096", repr(made.calls.pop()))
        elif made.refusal == "badshape" and repr(made.calls[-1]) == "read 0 4096":
            made.calls.pop()
        end = Tape(image, made.calls).after(len(made.calls)).content
        agree_bytes("the disk, by the recorded calls", bytes(end), made.left)
        return made

    def opening(self, image, fails=0):
        """An opening of these bytes, by a run of no steps."""
        made = self.openings.get(image, fails)
        if made is None:
            made = self.run(image, SMALLEST, [], fails)
            agree("what a run of no steps prints", "", made.out)
            if has_log(image) and made.refusal is None:
                # The machine reads the lengths once more.
                agree("the last call of an opening", "read", made.calls.pop().kind)
            made.files = self.files(made.left) if made.refusal is None else []
            self.openings.put(made, image, fails)
        return made

    def files(self, image):
        """The names and bytes of the files, by a dump."""
        files = self.dumps.get(image)
        if files is None:
            write("v.img", image)
            status, out, said = self.execute("dump", "--json", "v.img")
            agree("a dump", (0, ""), (status, said))
            agree_bytes("the disk after a dump", image, content_of("v.img"))
            files = files_of(out)
            self.dumps.put(files, image)
        return files

    def refusal_of_dump(self, image):
        write("v.img", image)
        status, out, said = self.execute("dump", "v.img")
        agree_bytes("the disk after a dump", image, content_of("v.img"))
        return Made(status, out, said, [], [], image).refusal


def content_of(path):
    with open(path, "rb") as it:
        return it.read()


def write(path, content):
    with open(path, "wb") as it:
        it.write(content)


def has_log(image):
    return image[:8] in (b"FAMSYNC5", b"FAMSYNC6")


def calls_of(log, skipped):
    """The device calls that were recorded, without the first ones; and the writes to the output."""
    calls, printed, at = [], [], 0
    while at < len(log):
        end = log.index(b"\n", at)
        kind, *numbers = log[at:end].decode().split()
        at = end + 1
        if kind == "O":
            printed.append((len(calls) - skipped, int(numbers[0])))
            continue
        place, count = (int(it) for it in numbers) if kind[-1] != "S" else (0, 0)
        content = b""
        if kind == "W":
            content, at = log[at : at + count], at + count
        calls.append(Call(KINDS[kind], place, content, count, kind[0] == "F"))
    return calls[skipped:], printed


def files_of(text_of_dump):
    files = []
    for line in map(json.loads, text_of_dump.splitlines()):
        if "name" in line:
            files.append((line["name"], bytearray(line["length"])))
        else:
            row = bytes.fromhex(line["bytes"])
            files[-1][1][line["offset"] : line["offset"] + len(row)] = row
    return [(name, bytes(content)) for name, content in files]
