"""A second reading of the protocol of `famsync serve`: what a session answers, as far as its lines decide that.

It has the files' bytes and lengths, the mappings, the pages that were stored to, and the marks. It has no TLB, no
frames and no journal. If an answer depends on those, it says so.
"""

import collections
import json
import re
import struct

PAGE = 4096
RANGE = 65536
LONGEST = 262144
LAST = 1 << 47

# Each act with the kinds of its arguments: the greatest number, a list of words, or bytes.
BYTE, SPACE, LONG, WIDE = 255, 65535, 4294967295, (1 << 64) - 1
ACTS = {
    "create": [],
    "destroy": [SPACE],
    "switch": [SPACE, ("keep", "drop")],
    "map": [SPACE, WIDE, WIDE, SPACE, WIDE, ("r", "w", "rw"), ("r", "rw")],
    "unmap": [SPACE, WIDE, WIDE],
    "protect": [SPACE, WIDE, WIDE, ("r", "w", "rw")],
    "reclaim": [SPACE, LONG],
    "msync": [WIDE, WIDE, BYTE],
    "setlength": [SPACE, WIDE],
    "load": [WIDE, BYTE],
    "store": [WIDE, bytes],
    "fix": [WIDE, ("read", "write")],
    "fill": [WIDE],
    "evict": [BYTE],
    "idle": [],
    "wake": [],
    "ack": [],
    "change": [],
    "resume": [],
    "flush": [],
}
REFUSALS = "stalled locked segvmaperr segvaccerr busadrerr held noframe device broken einval enomem eacces".split()
REFUSALS += "overlap nofile notresident busy outofmemory".split()
STEP = re.compile(
    r"(?:notyet \d+|fault [467]|space \d+|bytes(?: \d+)*|marked \d+|committed \d+|done \d+"
    r"|destroyed|switched|mapped|begun|fine|nothing|stored|fixed|filled|evicted|idled|woken|acked|unmapped|protected"
    r"|reclaimed|kept|resized|resumed|going|"
    + "|".join(REFUSALS)
    + r")\Z"
)


class Bad(Exception):
    """The line is a bad one."""


def whole(value, greatest):
    if type(value) is not int or not 0 <= value <= greatest:
        raise Bad(f"{value!r} isn't a whole number up to {greatest}")
    return value


def argument(value, kind):
    if kind is bytes:
        if type(value) is not list or len(value) > 8:
            raise Bad("not a list of up to 8 bytes")
        return bytes(whole(byte, 255) for byte in value)
    if type(kind) is tuple:
        if type(value) is not str or value not in kind:
            raise Bad("not one of the words")
        return value
    return whole(value, kind)


def no_member_twice(pairs):
    return dict(pairs)


def json_of(line):
    if len(line) > LONGEST:
        raise Bad("the line is too long")
    try:
        text = line.decode("utf-8")
    except UnicodeDecodeError:
        raise Bad("it isn't UTF-8") from None

    def refuse(what):
        raise Bad(f"{what} isn't JSON")

    def number(digits):
        if not re.fullmatch(r"0|[1-9][0-9]*", digits):
            raise Bad("a number has a sign")
        return int(digits[:30])

    try:
        # a line has no line feed, and the other white space of JSON is allowed
        return json.loads(text, parse_constant=refuse, parse_int=number, parse_float=lambda _: refuse("a fraction"))
    except (ValueError, RecursionError):
        raise Bad("it isn't JSON") from None


def step_of(value):
    """A step, or Bad."""
    if type(value) is not list or len(value) < 2:
        raise Bad("not a step")
    processor, act, *rest = value
    whole(processor, 255)
    if type(act) is not str or act not in ACTS:
        raise Bad("no such act")
    if len(rest) != len(ACTS[act]):
        raise Bad("another number of arguments")
    return (processor, act, *(argument(one, kind) for one, kind in zip(rest, ACTS[act])))


def request_of(line):
    """What a line asks for: a list of steps, or a tuple that begins with loads, stores, commit or setlength; or Bad."""
    value = json_of(line)
    if type(value) is not list or not value:
        raise Bad("not a request")
    if type(value[0]) is list:
        return [step_of(one) for one in value]
    if len(value) >= 2 and type(value[1]) is str and value[1] in ("loads", "stores", "commit"):
        processor, act, *rest = value
        whole(processor, 255)
        if act == "commit" and not rest:
            return ("commit", processor)
        if act != "commit" and len(rest) == 2:
            at = whole(rest[0], WIDE)
            if act == "loads":
                return ("loads", processor, at, whole(rest[1], RANGE))
            if type(rest[1]) is str and re.fullmatch(r"(?:[0-9a-fA-F]{2})*", rest[1]) and len(rest[1]) <= 2 * RANGE:
                return ("stores", processor, at, bytes.fromhex(rest[1]))
        raise Bad("other arguments")
    if len(value) >= 2 and value[1] == "setlength":
        processor, act, *rest = step_of(value)
        return (act, processor, *rest)
    return [step_of(value)]


# The number of journals and the most slots of each layout.
JOURNALS = {1: 1, 2: 2, 3: 2, 4: 4}
MOST_SLOTS = {1: 1020, 2: 1020, 3: 1020, 4: 65535}
LAYOUTS = tuple(JOURNALS)


def journals_of(layout):
    return JOURNALS[layout]


def has_lengths(layout):
    """Whether a volume of the layout has a block for the lengths of its files."""
    return layout >= 3


def descriptor_blocks(slots):
    """The number of blocks of a journal's descriptor, which has 16 bytes and 4 for each slot."""
    return (16 + 4 * slots + PAGE - 1) // PAGE


def gates_of(layout, slots):
    """The gate blocks of the journals. Each has its descriptor behind it, and then its slots."""
    return [1 + journal * (1 + descriptor_blocks(slots) + slots) for journal in range(journals_of(layout))]


def first_home(layout, slots):
    """The first block after the journals."""
    return 1 + journals_of(layout) * (1 + descriptor_blocks(slots) + slots)


def files_of(volume):
    """What the bytes of a volume recover to: home blocks, with the records of open journals in their places, and in
    layouts 3 and 4 each file cut at the length that the block before them says."""
    layout = int(volume[7:8])
    count, slots = struct.unpack(">II", volume[8:16])
    journals = []
    for gate in gates_of(layout, slots):
        if volume[gate * PAGE] == 0xA7:
            begin = (gate + 1) * PAGE
            mark, records = struct.unpack(">QI", volume[begin : begin + 12])
            homes = struct.unpack(f">{records}I", volume[begin + 16 : begin + 16 + 4 * records])
            slot = gate + 1 + descriptor_blocks(slots)
            journals.append((mark, {home: slot + record for record, home in enumerate(homes)}))
    places = {}
    for _, records in sorted(journals, key=lambda journal: journal[0]):
        places.update(records)
    contents = []
    block_of_lengths = first_home(layout, slots)
    lengths_at = PAGE * places.get(block_of_lengths, block_of_lengths)
    for file in range(count):
        begin = 64 + 48 * file
        length, home, pages = struct.unpack(">QII", volume[begin : begin + 16])
        if has_lengths(layout):
            (length,) = struct.unpack(">Q", volume[lengths_at + 8 * file : lengths_at + 8 * file + 8])
        blocks = (PAGE * places.get(block, block) for block in range(home, home + pages))
        contents.append(b"".join(volume[block : block + PAGE] for block in blocks)[:length])
    return contents


def pages_of(length):
    return (length + PAGE - 1) // PAGE


class Model:
    """One processor, or several that are all active and in whatever space they were switched to. `capacities` are those
    of the files in layouts 3 and 4; in another layout there are none."""

    def __init__(self, files, cpus=1, capacities=None, journals=2):
        self.lengths = [length for _, length in files]
        self.capacities = capacities
        self.memory = [bytearray(PAGE * pages_of(length)) for length in self.lengths]
        self.kept_lengths = list(self.lengths)
        self.resized = False
        self.kept = [bytes(memory) for memory in self.memory]
        self.stored = set()
        # the pages of the last commits, two or with one journal one: their write-outs may be in progress
        self.last = collections.deque(maxlen=min(journals, 2))
        self.marks = 0
        self.spaces = {}
        self.current = [0] * cpus

    def fill(self, contents):
        for file, content in enumerate(contents):
            self.memory[file][: len(content)] = content
        self.kept = [bytes(memory) for memory in self.memory]

    def committed(self):
        """The files' bytes as the last commit left them."""
        return [kept[:length] for kept, length in zip(self.kept, self.kept_lengths)]

    def mapping(self, space, page):
        """Of a page of a space: file, page of the file and rights, or None."""
        return self.spaces.get(space, {}).get(page)

    def access(self, processor, at, count, write):
        """How many bytes can be accessed, and the cause where not all can; and the places of those that can."""
        places = []
        while count > 0:
            # A step of a range lies in one page.
            some = min(count, PAGE - at % PAGE)
            if at >= LAST:
                return places, "einval"
            found = self.mapping(self.current[processor], at // PAGE)
            if found is None:
                return places, "segvmaperr"
            file, page, rights = found
            if ("w" if write else "r") not in rights:
                return places, "segvaccerr"
            if page * PAGE >= len(self.memory[file]):
                return places, "busadrerr"
            places.append((file, page * PAGE + at % PAGE, some))
            at, count = at + some, count - some
        return places, None

    def range(self, request):
        act, processor, at, what = request
        write = act == "stores"
        # a range without bytes makes no step, and so isn't refused
        if processor >= len(self.current) and (len(what) if write else what) > 0:
            return "einval after 0"
        if processor >= len(self.current):
            return "stored 0" if write else "loaded"
        places, cause = self.access(processor, at, len(what) if write else what, write)
        done, loaded = 0, b""
        for file, begin, some in places:
            if write:
                self.memory[file][begin : begin + some] = what[done : done + some]
                self.stored.add((file, begin // PAGE))
            else:
                loaded += self.memory[file][begin : begin + some]
            done += some
        if cause is None:
            return f"stored {done}" if write else "loaded" + f" {loaded.hex()}" * bool(loaded)
        return f"{cause} after {done}" + (f" {loaded.hex()}" if loaded else "")

    def saved(self):
        return [bytes(memory) for memory in self.memory], set(self.stored), list(self.lengths), self.resized

    def restore(self, saved):
        self.memory, self.stored = [bytearray(memory) for memory in saved[0]], saved[1]
        self.lengths, self.resized = list(saved[2]), saved[3]

    def past_the_end(self):
        """The pages that have a byte past their file's end: it is memory alone, and so they stay there."""
        return {(file, end // PAGE) for file, end in enumerate(self.lengths) if any(self.memory[file][end:])}

    def stopped(self, request, reply, frames):
        """The reply to a range that stops for want of a frame where `reply` says, or that it can't stop there."""
        processor, act, at, what = request
        found = re.fullmatch(r"noframe after (\d+)(?: [0-9a-f]+)?", reply)
        done = int(found[1]) if found else -1
        count = what if act == "loads" else len(what) // 2
        if not 0 <= done < count or (done > 0 and (at + done) % PAGE != 0):
            return "noframe after a whole page, or after 0"
        cut = (act, processor, at, done if act == "loads" else bytes.fromhex(what[: 2 * done]))
        whole = self.range(cut)
        stay = self.stored.union(*self.last) | self.past_the_end()
        if len(stay) < frames:
            return f"a page more, as {len(stay)} have to stay in memory and there are {frames} frames"
        return f"noframe after {done}" + (" " + whole[7:] if act == "loads" and done > 0 else "")

    def commit(self):
        self.marks += 1
        if self.stored or self.resized:
            self.last.append(set(self.stored))
        self.kept_lengths, self.resized = list(self.lengths), False
        self.kept = [kept[: len(memory)].ljust(len(memory), b"\0") for kept, memory in zip(self.kept, self.memory)]
        for file, page in self.stored:
            kept = bytearray(self.kept[file])
            kept[page * PAGE : (page + 1) * PAGE] = self.memory[file][page * PAGE : (page + 1) * PAGE]
            self.kept[file] = bytes(kept)
        self.stored.clear()
        return f"committed {self.marks}"

    def set_length(self, processor, file, to):
        """A new length, and the reply to it; where the page in which the file ends isn't in memory, or too few frames
        can be made free for what it grows by, it is `unset` instead."""
        refused = self.length_refusal(processor, file, to)
        if refused:
            return refused
        old, self.lengths[file] = self.lengths[file], to
        if to == old:
            return "fine"
        memory, least = self.memory[file], min(old, to)
        memory[least:] = bytes(len(memory) - least)
        del memory[PAGE * pages_of(to) :]
        memory.extend(bytes(PAGE * pages_of(to) - len(memory)))
        self.stored = {(other, page) for other, page in self.stored if other != file or page < pages_of(to)}
        # what it grows by goes into the next commit, with the rest of the page in which it ended
        self.stored |= {(file, page) for page in range(old // PAGE, pages_of(to)) if to > old}
        self.resized = True
        return "resized"

    def length_refusal(self, processor, file, to):
        if processor >= len(self.current) or self.capacities is None:
            return "einval"
        if file >= len(self.lengths):
            return "nofile"
        return "einval" if to > self.capacities[file] else None

    def unset(self, request, reply, frames):
        """The reply to a new length that isn't set for want of a page or of frames, or that it can't be refused so."""
        _, _, file, to = request
        if self.length_refusal(*request[1:]) or to <= self.lengths[file]:
            return "another answer, as no page is wanted"
        last = (file, self.lengths[file] // PAGE)
        if reply == "notresident" and (self.lengths[file] % PAGE == 0 or last in self.stored):
            return "another answer, as the page in which the file ends isn't wanted or is in memory"
        stay = self.stored | self.past_the_end()
        more = pages_of(to) - pages_of(self.lengths[file])
        if reply == "noframe" and len(stay) + more <= frames:
            return f"resized, as {len(stay)} pages have to stay in memory, {more} come and there are {frames} frames"
        return reply

    def step(self, step):
        """The reply to one step of those that this model knows; else None."""
        processor, act, *rest = step
        if processor >= len(self.current):
            return "einval"
        if act == "setlength":
            # what is begun is ended by a `change`, of which this model knows nothing
            return self.length_refusal(processor, *rest) or ("fine" if self.lengths[rest[0]] == rest[1] else None)
        if act == "create":
            space = next(number for number in range(1, 4097) if number not in self.spaces)
            if space > 4095:
                return "enomem"
            self.spaces[space] = {}
            return f"space {space}"
        if act == "switch":
            space, _ = rest
            if space != 0 and space not in self.spaces:
                return "einval"
            self.current[processor] = space
            return "switched"
        if act == "map":
            return self.map(*rest)
        if act == "destroy":
            if rest[0] not in self.spaces:
                return "einval"
            if rest[0] in self.current:
                return "busy"
            del self.spaces[rest[0]]
            return "destroyed"
        return None

    def map(self, space, at, length, file, offset, rights, opened):
        pages = pages_of(length)
        first = offset // PAGE
        if space not in self.spaces or at % PAGE or offset % PAGE or not 1 <= pages <= 65536:
            return "einval"
        if at < PAGE or at + pages * PAGE > LAST or first + pages - 1 > LONG:
            return "einval"
        if file >= len(self.lengths):
            return "nofile"
        if "w" in rights and opened == "r":
            return "eacces"
        table = self.spaces[space]
        if any(at // PAGE + i in table for i in range(pages)):
            return "overlap"
        for i in range(pages):
            table[at // PAGE + i] = (file, first + i, "rw" if "w" in rights else "r")
        return "mapped"

    def answer(self, line):
        """The reply to a line: `badline` for one that says why; None for an answer that this model doesn't know."""
        try:
            request = request_of(line)
        except Bad:
            return "badline"
        if type(request) is tuple and request[0] == "setlength":
            return self.set_length(*request[1:])
        if type(request) is tuple:
            return self.commit() if request[0] == "commit" else self.range(request)
        replies = [self.step(step) for step in request]
        return None if None in replies else "; ".join(replies)
