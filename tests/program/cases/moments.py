"""Runs that are stopped before a system call (by lib/faults.c): what is printed and on the disk by then."""

import itertools
import os
import signal

from files.program import bytes_of, ended, stopped, write
from cases.images import COMMITTED, FIRST_REPLIES, FIRST_SCRIPT, image_of_one
from cases.trial import agree, ended_so, holds, leaves, same_bytes, words_of, write_bytes

# What is printed up to the mark, and the lines of the commit.
MARKED, COMMIT = FIRST_REPLIES.split("going\n" * 4)[0], "going\ngoing\ngoing\ngoing\ncommitted 1\n"


class Moment:
    """A run of a script on a volume of layout 1, both in files of this name, that was stopped before one of its calls,
    or ended before it."""

    def __init__(self, name, call, only):
        self.disk, self.line = f"{name}.img", f"run|{name}.img|{name}.json"
        write_bytes(self.disk, image_of_one())
        with open("printed", "wb") as out:
            self.process = stopped(words_of(self.line), call, only=only, out=out)

    def printed(self):
        return bytes_of("printed").decode()

    def is_left(self):
        self.process.kill()
        ended(self.process)

    def goes_on(self, status, out, err):
        """It ends with this status, and has printed these texts."""
        os.kill(self.process.pid, signal.SIGCONT)
        ran = ended(self.process)
        yield from ended_so(self.line, ran, status, "", err)
        yield from agree(f"{self.line}: all that is printed", out, self.printed())


def first_moment(name, only, printed):
    """The moment before the first of the calls of a kind that a run makes when this is all that it has printed, or None
    if it makes none then."""
    for call in itertools.count(1):
        moment = Moment(name, call, only)
        if moment.process is None:
            return None
        if moment.printed() == printed:
            return moment
        moment.is_left()


def an_acknowledgement_comes_before_the_next_step():
    """The next step reads, and then it writes and syncs. Before each of these the line is there, the gate is open, and
    the home block has its old bytes."""
    write("watched.json", FIRST_SCRIPT)
    for only in ("read", None):
        moment = first_moment("watched", only, MARKED + COMMIT)
        if moment is None:
            yield f"no call is made once the commit is acknowledged (calls: {only})"
        else:
            yield from holds("watched.img", image_of_one(COMMITTED))
            yield from moment.goes_on(0, FIRST_REPLIES, "")
    yield from leaves("watched.img", "watched.json", "printed")


# A run syncs as it opens the file, as it opens the volume, before it opens the gate, and after it has.
SYNC_OF_THE_GATE = 4


def no_acknowledgement_comes_before_the_sync():
    """The gate is written and not synced: the commit isn't acknowledged yet."""
    write("synced.json", FIRST_SCRIPT)
    moment = Moment("synced", SYNC_OF_THE_GATE, "sync")
    if moment.process is None:
        yield "a run doesn't sync so often"
    else:
        yield from agree("what is printed before the sync", MARKED, moment.printed())
        yield from holds("synced.img", image_of_one(COMMITTED))
        yield from moment.goes_on(0, FIRST_REPLIES, "")
    yield from leaves("synced.img", "synced.json", "printed")


FAILING_SCRIPT = (
    '{"cpus":1,"tlb":8,"frames":4,"copies":0,"steps":[[0,"create"],[0,"map",1,4096,4096,1,0,"rw","rw"],'
    '[0,"switch",1,"drop"],[0,"load",4096,1],[0,"fix",4096,"read"],[0,"load",4096,1],[0,"fix",4096,"read"],'
    '[0,"flush"]]}'
)

BEFORE_FAILING = "space 1\nmapped\nswitched\nfault 4\n"


def a_failed_device_call_is_reported():
    """Where a device call fails, the run goes on: all replies are printed, and the status is 3 then. The file is cut
    off before the first page is read."""
    write("failing.json", FAILING_SCRIPT)
    moment = first_moment("failing", "read", BEFORE_FAILING)
    if moment is None:
        yield "no page is read"
    else:
        os.truncate("failing.img", 0)
        replies = f"{BEFORE_FAILING}device\nfault 4\ndevice\nnothing\n"
        said = 'famsync: script "failing.json": step 5: the device failed\n'
        yield from moment.goes_on(3, replies, said)
    yield from same_bytes("what is left of the file", b"", bytes_of("failing.img"))
    yield from leaves("failing.img", "failing.json", "printed")


GROUPS = [
    an_acknowledgement_comes_before_the_next_step,
    no_acknowledgement_comes_before_the_sync,
    a_failed_device_call_is_reported,
]
