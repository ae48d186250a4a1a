"""Files that are cut off, full disks, failing calls, kills, and little memory."""

import errno
import itertools
import json
import os
import signal

from files.program import (
    EXPORT, MIGRATE, NEWER, OLD, OTHER, REPLIES, SHAPE, TO_OTHER, bytes_of, calls_of, clear, complains, ended, famsync,
    has, start, stopped, volume, write, write_image,
)
from lib.processes import TOP, want


def cut_files():
    """The file is cut while a run has it open, before each of its calls."""
    for length in (0, 4096, 20000):
        for call in itertools.count(1):
            volume()
            process = stopped(["run", "v.img", "newer.json"], call)
            if process is None:
                break
            os.truncate("v.img", length)
            os.kill(process.pid, signal.SIGCONT)
            over = ended(process)
            in_order = over.status in (0, 3) and "panic" not in over.err
            want(in_order, "a run over a cut file ends in order", length, call, over)
            if over.status == 3:
                complains(over)
    volume()
    os.truncate("v.img", 20000)
    complains(famsync("run", "v.img", "newer.json"), "damaged")
    complains(famsync("dump", "v.img"), "damaged")
    complains(famsync("info", "v.img"), "damaged: the file has 20000 bytes, but its super block requires 40960")
    complains(famsync(*EXPORT), "damaged")
    checked = famsync("check", "v.img")
    damaged = "damaged: the file has 20000 bytes" in checked.out
    want((checked.status, checked.err) == (3, "") and damaged, "it is reported", checked)


def no_room():
    full = errno.ENOSPC
    volume()
    writes = calls_of(TO_OTHER, "write")
    for call, how in itertools.product(range(1, writes + 1), ("fail", "from")):
        volume()
        before = bytes_of("v.img")
        complains(famsync(*TO_OTHER, fault=f"{how}:{call}:{full}", only="write"))
        want(bytes_of("v.img") == before and not os.path.exists("v.img.new"), "the old volume is left", call)
    volume()
    writes = calls_of(["run", "v.img", "newer.json"], "write")
    for call, how in itertools.product(range(1, writes + 1), ("fail", "from")):
        volume()
        ran = famsync("run", "v.img", "newer.json", fault=f"{how}:{call}:{full}", only="write")
        complains(ran, "the device failed")
        want(len(ran.out.splitlines()) == len(REPLIES), "all replies come", ran)
        found = has(OLD, NEWER)
        want(found == 1 or "committed 1" not in ran.out, "an acknowledged commit is there", call, ran)
    # A limit on the size of files ends a process that goes past it.
    for limit in (0, 4096, 8192, 20000):
        volume()
        before = bytes_of("v.img")
        over = famsync(*TO_OTHER, limit=limit)
        want(over.status in (3, -signal.SIGXFSZ), "a limit on files", limit, over)
        want(bytes_of("v.img") == before, "leaves the old volume", limit)


def killed_formats():
    for words in (TO_OTHER, ["format", "--layout", "2", "v.img", "3", "c=100"]):
        volume()
        calls = calls_of(words)
        found = []
        for call in range(1, calls + 2):
            volume()
            killed = famsync(*words, fault=f"kill:{call}")
            want((killed.status == 0) == (call > calls), "it was killed", call, killed)
            found.append(has(OLD, OTHER))
            if os.path.exists("v.img.new"):
                complains(famsync(*words), '"v.img.new" already exists', "remove it")
                os.remove("v.img.new")
            want(famsync(*words).status == 0, "and can be made again", call)
            has(OTHER)
        want(found == sorted(found) and set(found) == {0, 1}, "old files up to a call, and then new ones", found)
        # Where nothing was there before: nothing, or the new volume.
        for call in range(1, calls + 2):
            clear()
            famsync(*words, fault=f"kill:{call}")
            if os.path.exists("v.img"):
                has(OTHER)


def failed_calls():
    """Each call of a format fails: what is there is the old volume, or the new one."""
    volume()
    for call in range(1, calls_of(TO_OTHER) + 1):
        volume()
        complains(famsync(*TO_OTHER, fault=f"fail:{call}:{errno.EIO}"))
        has(OLD, OTHER)
        if os.path.exists("v.img.new"):
            os.remove("v.img.new")
    # The mode of the old file stays.
    volume()
    os.chmod("v.img", 0o640)
    want(famsync(*TO_OTHER).status == 0, "made again")
    want(os.stat("v.img").st_mode & 0o7777 == 0o640, "with its mode")


# Rule: suspect volume
def failed_syncs():
    words = ["run", "v.img", "newer.json"]
    volume()
    syncs = calls_of(words, "sync")
    want(syncs == 6, "a run syncs as it opens the file, as it opens the volume, and four times a commit", syncs)
    for call in range(1, syncs + 1):
        volume()
        ran = famsync(*words, fault=f"fail:{call}:{errno.EIO}", only="sync")
        marked = '"v.img.suspect" marks it'
        if call == 1:
            complains(ran, "the file can't be synced", marked)
            want(ran.out == "", "nothing was run", ran)
        elif call == 2:
            complains(ran, 'disk "v.img": device', marked)
            want(ran.out == "", "nothing was run", ran)
        else:
            complains(ran, "the device failed", marked)
            want(len(ran.out.splitlines()) == len(REPLIES), "all replies come", ran)
        want(os.path.exists("v.img.suspect"), "the volume is marked", call)
        before = bytes_of("v.img")
        for again in (words, ["dump", "v.img"]):
            complains(famsync(*again), '"v.img.suspect" exists because a sync failed', "--trust")
        want(bytes_of("v.img") == before, "and isn't touched", call)
        trusted = famsync("dump", "--trust", "v.img")
        want(trusted.status == 0 and trusted.out in (OLD, NEWER), "it is dumped if it is trusted", trusted)
        want(os.path.exists("v.img.suspect"), "and is still marked", call)
        if call % 2:
            want(famsync("run", "--trust", "v.img", "newer.json").status == 0, "it is run if it is trusted")
            has(NEWER)
        else:
            want(famsync(*TO_OTHER).status == 0, "it is made anew without that")
            has(OTHER)
        want(not os.path.exists("v.img.suspect"), "and then is marked no longer", call)
        # Where the mark can't be made either, both are said.
        volume()
        both = famsync(*words, fault=f"from:{call}:{errno.EIO}", only="sync")
        complains(both, '"v.img.suspect", which is to mark it, can\'t be made: ')
    # The mark is there before the step's reply is printed.
    volume()
    reader, writer = os.pipe()
    process = start(words, fault=f"fail:3:{errno.EIO}", only="sync", out=writer)
    os.close(writer)
    with os.fdopen(reader) as lines:
        for line in lines:
            if line == "device\n":
                want(os.path.exists("v.img.suspect"), "the mark is there before the reply")
                break
        else:
            want(False, "a reply reports the failed sync")
        lines.read()
    want(ended(process).status == 3, "the run ends so")
    # A run that is trusted and whose file can't be synced leaves the mark.
    volume()
    write("v.img.suspect", "")
    trusting = ["run", "--trust", "v.img", "newer.json"]
    complains(famsync(*trusting, fault=f"fail:1:{errno.EIO}", only="sync"), "can't be synced")
    want(os.path.exists("v.img.suspect"), "the mark stays")


def names_before_their_sync():
    """The last sync of a command that gives a file a name is that of the folder, which has the name by then."""
    for words, name in ((TO_OTHER, "v.img"), (EXPORT, "a.copy"), (MIGRATE, "w.img")):
        volume()
        syncs = calls_of(words, "sync")
        volume()
        before = os.path.exists(name) and os.stat(name).st_ino
        process = stopped(words, syncs, only="sync")
        descriptors = f"/proc/{process.pid}/fd"
        opened = [os.readlink(f"{descriptors}/{number}") for number in os.listdir(descriptors)]
        want(os.path.realpath(".") in opened, "the folder is open", words, opened)
        want(os.path.exists(name) and os.stat(name).st_ino != before, "the file has its name", words)
        os.kill(process.pid, signal.SIGCONT)
        want(ended(process).status == 0, "it goes on", words)
        volume()
        complains(famsync(*words, fault=f"fail:{syncs}:{errno.EIO}", only="sync"))


def suspect_volumes():
    """Without --trust, no command reads a volume that is marked as suspect."""
    volume()
    write("v.img.suspect", "")
    threads = ["threads", "v.img", f"{TOP}/examples/threads.json"]
    for words in (["dump", "v.img"], ["crashes", "v.img", "old.json"], MIGRATE, threads):
        complains(famsync(*words), '"v.img.suspect" exists because a sync failed', "--trust")


def threads_that_fail():
    words = ["threads", "v.img", f"{TOP}/examples/threads.json"]
    after = [OLD.replace(" 41 00", row, 1) for row in (" 01 00", " 01 02")]
    volume()
    syncs = calls_of(words, "sync")
    for call in range(1, syncs + 1):
        volume()
        ran = famsync(*words, fault=f"fail:{call}:{errno.EIO}", only="sync")
        complains(ran, '"v.img.suspect" marks it')
        want(os.path.exists("v.img.suspect"), "the volume is marked", call)
        traced = ran.out.startswith('{"copies":0,"cpus":2,')
        want(traced == ("entry" in ran.err), "the trace is printed if there is one", call, ran)
        trusted = famsync("dump", "--trust", "v.img")
        want(trusted.status == 0 and trusted.out in (OLD, *after), "the volume has its files", call, trusted)
    volume()
    for call in range(1, calls_of(words) + 1):
        volume()
        ran = famsync(*words, fault=f"kill:{call}")
        want(ran.status in (0, -signal.SIGKILL), "it ends or is killed", call, ran)
        has(OLD, *after)


def steps_of_spaces(count, length):
    """Spaces, each of which maps a file from 4,096 on."""
    spaces = range(1, count + 1)
    return [step for space in spaces for step in ([0, "create"], [0, "map", space, 4096, length, 0, 0, "rw", "rw"])]


def suffices(steps, memory):
    """Whether no step lacks memory in a run with this much address space."""
    write("v.img.steps", json.dumps({**SHAPE, "steps": steps}))
    ran = famsync("run", "v.img", "v.img.steps", memory=memory)
    return ran.status == 0 and "outofmemory" not in ran.out


def bounded_memory():
    """All spaces, each with a mapping of four pages, take less than 80 MB; a mapping of 65,536 pages less than 1.2 MB.
    Less than half of that doesn't suffice for the spaces."""
    volume()
    little = next(memory for memory in range(1 << 20, 1 << 26, 1 << 16) if suffices(steps_of_spaces(1, 4096), memory))
    want(suffices(steps_of_spaces(1, 1 << 28), little + 1_200_000), "a large mapping has room", little)
    spaces = steps_of_spaces(4095, 16_384)
    want(suffices(spaces, little + 80_000_000), "all spaces have room", little)
    want(not suffices(spaces, little + 40_000_000), "all spaces have no room in half of it", little)


def little_memory():
    """A dump reports that it lacks memory, or is whole. It takes little: a few steps of 8 KiB are refused."""
    clear()
    pages = 1020
    row = " 2a" * 16
    write_image("v.img", pages * 4096, slots=pages, gate=0xA7)
    whole = f"c {pages * 4096}\n" + "".join(f"{at:012x}{row}\n" for at in range(0, pages * 4096, 16))
    found = []
    for limit in range(2 << 20, 24 << 20, 1 << 13):
        process = start(["dump", "v.img"], memory=limit)
        over = ended(process)
        if over.status == 0:
            want(over.out == whole, "a dump is whole", limit)
        elif over.status == 3:
            complains(over, "out of memory")
        else:
            before_it_began = over.status in (127, -signal.SIGSEGV, -signal.SIGKILL)
            want(not over.out and before_it_began, "it doesn't begin", limit, over)
        found.append(over.status)
        if found.count(0) == 8:
            break
    want({0, 3} <= set(found), "memory was refused, and sufficed", set(found))
