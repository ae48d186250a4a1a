"""What the lines of stored runs say (docs/RUNS.md): their members, the bytes that they name, and what is wanted."""

import re


class Fault(Exception):
    """A line breaks the grammar, or asks for something that can't be made."""


class Differs(Exception):
    """A result isn't the wanted one."""


def agree(what, wanted, came):
    if wanted != came:
        raise Differs(f"{what}: wanted {wanted}, came {came}")


def agree_bytes(what, wanted, came):
    """The place of the first difference is named."""
    if wanted == came:
        return
    low, high = 0, min(len(wanted), len(came))
    if wanted[:high] == came[:high]:
        raise Differs(f"{what}, byte {high}: wanted {len(wanted)}, came {len(came)}")
    while high - low > 1:
        middle = (low + high) // 2
        low, high = (low, middle) if wanted[low:middle] != came[low:middle] else (middle, high)
    raise Differs(f"{what}, byte {low}: wanted {wanted[low]}, came {came[low]}")


# Members of a line


def only(line, *names):
    for name in line:
        if name not in names:
            raise Fault(f"{name!r} doesn't belong here")


def number(value, what):
    if type(value) is not int or not 0 <= value < 1 << 64:
        raise Fault(f"{what} is no whole number")
    return value


def text(value, what):
    if not isinstance(value, str):
        raise Fault(f"{what} is no text")
    return value


def items(value, what, *counts):
    """A list, with one of these numbers of items."""
    if not isinstance(value, list):
        raise Fault(f"{what} is no list")
    if counts and len(value) not in counts:
        raise Fault(f"{what} has {len(value)} items")
    return value


def member(line, name):
    if name not in line:
        raise Fault(f"{name!r} isn't there")
    return line[name]


def number_of(line, name, *otherwise):
    return otherwise[0] if otherwise and name not in line else number(member(line, name), name)


def list_of(line, name):
    return items(line.get(name, []), name)


def span_of(line, name):
    """The numbers from the first to the last one, or None."""
    if name not in line:
        return None
    first, last = (number(it, name) for it in items(line[name], name, 2))
    if first > last:
        raise Fault("the first number is no greater than the last")
    return range(first, last + 1)


def bytes_of(value, what):
    if not re.fullmatch("([0-9a-fA-F]{2})+", text(value, what)):
        raise Fault("bytes have two hexadecimal digits each")
    return bytes.fromhex(value)


def put_of(at, digits, times=1):
    return number(at, "the offset"), bytes_of(digits, "the bytes") * number(times, "how often")


def puts_of(values):
    return [put_of(*items(value, "bytes", 2, 3)) for value in values]


def patch(image, puts):
    for at, part in puts:
        if at + len(part) > len(image):
            raise Fault("the bytes go past the end")
        image[at : at + len(part)] = part
    return image


class File:
    """A file of a volume, as the line of the volume names it."""

    def __init__(self, value):
        name, *sizes = items(value, "a file", 2, 3)
        self.name, sizes = text(name, "the name"), [number(size, "the length") for size in sizes]
        self.length, self.capacity = sizes[0], sizes[-1]


class State:
    """The files that an opening finds: those of the volume, with these lengths and bytes."""

    def __init__(self, line):
        self.lengths = {}
        for value in list_of(line, "lengths"):
            file, length = items(value, "a length", 2)
            self.lengths.setdefault(text(file, "the file"), number(length, "the length"))
        self.parts = []
        for value in list_of(line, "bytes"):
            file, *put = items(value, "bytes", 3, 4)
            self.parts.append((text(file, "the file"), put_of(*put)))

    def files(self, files):
        """Their names and bytes."""
        for file in files:
            content = bytearray(self.lengths.get(file.name, file.length))
            yield file.name, bytes(patch(content, [put for name, put in self.parts if name == file.name]))

    def compare(self, files, found):
        agree("files", len(files), len(found))
        for (name, content), (found_name, found_content) in zip(self.files(files), found):
            agree("the file's name", name, found_name)
            agree("the file's length", len(content), len(found_content))
            agree_bytes(name, content, found_content)


class Wanted:
    """What an opening finds: a refusal, or files."""

    def __init__(self, line):
        self.refusal = text(line["refuses"], "the refusal") if "refuses" in line else None
        if self.refusal is not None:
            self.calls, self.more = (number(line["calls"], "calls") if "calls" in line else None), 0
            return
        opens = member(line, "opens")
        if isinstance(opens, dict):
            self.calls, self.more = number_of(opens, "closed"), number_of(opens, "open_gate")
        else:
            self.calls, self.more = opens if opens is None else number(opens, "opens"), 0
        self.state = State(line)
        self.writes = puts_of(list_of(line, "writes")) if "writes" in line else None

    def compare(self, files, image, found, gates=()):
        """Compares an opening of these bytes."""
        if self.refusal is None:
            agree("the opening", "a volume", found.refusal or "a volume")
            self.state.compare(files, found.files)
        else:
            agree("the opening", self.refusal, found.refusal or "a volume")
            agree("the writes of a refused opening", [], [call for call in found.calls if call.kind == "write"])
            agree_bytes("the disk that is refused", image, found.left)
        if self.calls is not None:
            opened = sum(image[gate : gate + 1] == b"\xa7" for gate in gates)
            agree("calls of the opening", self.calls + self.more * opened, len(found.calls))
        if self.refusal is None and self.writes is not None:
            agree_bytes("the disk", bytes(patch(bytearray(image), self.writes)), found.left)


class Ended:
    """How a run ends: its device calls, those of them that failed, and why it was refused."""

    def __init__(self, line):
        self.calls = self.faults = self.refused = None
        if line is not None:
            only(line, "ends", "faults", "refused")
            self.calls, self.faults = number_of(line, "ends"), number_of(line, "faults", 0)
            self.refused = text(line["refused"], "refused") if "refused" in line else None

    def compare_refused(self, refused, made):
        agree("the run", self.refused or made, refused or made)

    def compare_calls(self, calls):
        if self.calls is not None:
            agree("device calls", self.calls, len(calls))
            agree("calls that failed", self.faults, sum(call.failed for call in calls))


def choice_of(value, more=()):
    """What a crash leaves."""
    is_named = text(value, "what a crash leaves") in ("old", "new", "halves", *more)
    if not is_named and not re.fullmatch("back [0-9]+|[0-9a-fA-F]{2}", value):
        raise Fault("a crash leaves old, new, halves, back and a number, or a byte")
    return value
