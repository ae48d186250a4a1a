"""The disks of stored runs (docs/RUNS.md): the calls that they get, and the bytes that crashes leave."""

from .grammar import Fault

PAGE = 4096
# What a failed write leaves in its range.
SPOILT = b"\xee"


class Call:
    """A device call. The bytes of a read aren't kept, only their number."""

    def __init__(self, kind, at=0, content=b"", count=0, failed=False):
        self.kind, self.at, self.content, self.failed = kind, at, content, failed
        self.count = count or len(content)

    def __repr__(self):
        return "sync" if self.kind == "sync" else f"{self.kind} {self.at} {self.count}"

    def __eq__(self, other):
        return vars(self) == vars(other)

    def now_failed(self):
        return Call(self.kind, self.at, self.content, self.count, True)


class Disk:
    """A disk: its bytes, those after the last sync, and the ranges that were written since."""

    def __init__(self, content, synced=None, written=()):
        self.content, self.written = bytearray(content), [*written]
        self.synced = bytes(content) if synced is None else synced

    def copy(self):
        return Disk(self.content, self.synced, self.written)

    def make(self, call):
        if call.kind == "write":
            end = call.at + call.count
            self.content[call.at : end] = SPOILT * call.count if call.failed else call.content
            self.written.append((call.at, end))
        elif call.kind == "sync" and not call.failed:
            self.synced = bytes(self.content)
            self.written.clear()

    def crashed(self, left):
        """The bytes after a crash that leaves these where nothing was synced."""
        content = bytearray(self.content)
        for at, end in self.written:
            content[at:end] = left[at:end]
        return bytes(content)


class Tape:
    """The calls of a run, and the bytes of the disk before them."""

    def __init__(self, first, calls):
        self.first, self.calls = bytes(first), calls
        self.last = 0, Disk(first)

    def after(self, count):
        """The disk after this number of calls."""
        if count > len(self.calls):
            raise Fault("there are fewer device calls")
        made, disk = self.last
        if made > count:
            made, disk = 0, Disk(self.first)
        disk = disk.copy() if made < count else disk
        for call in self.calls[made:count]:
            disk.make(call)
        self.last = count, disk
        return disk


def halves(new, old):
    """The first half of each new block, and the second half of each old one."""
    left = bytearray(old)
    for at in range(0, len(left), PAGE):
        left[at : at + PAGE // 2] = new[at : at + PAGE // 2]
    return left


def alternate(even, odd):
    """The blocks of even numbers, and those of odd ones."""
    left = bytearray(odd)
    for at in range(0, len(left), 2 * PAGE):
        left[at : at + PAGE] = even[at : at + PAGE]
    return left
