"""Traces that are run again."""

from files.program import write
from cases.images import image_of_one, makes_volume
from cases.trial import clear, complains, holds, leaves, prints, write_bytes

# The first line of a trace, and its entries.
SHAPE = '{"copies":0,"cpus":1,"frames":4,"tlb":8,"trace":100}\n'

MAPPED = """\
[[0,"create"],"space 1"]
[[0,"map",1,4096,12288,0,0,"rw","rw"],"mapped"]
"""

STORED = """\
[[0,"switch",1,"drop"],"switched"]
[[0,"store",4096,[65]],"fault 6"]
[[0,"fix",4096,"write"],"fixed"]
[[0,"store",4096,[65]],"stored"]
[[0,"msync",4096,4096,4],"begun"]
[[0,"change"],"marked 1"]
[[0,"flush"],"going"]
"""

# Parts of traces, and the fault of each.
REPLAYED = [
    # No entries.
    ([SHAPE], 0, "same 0\n"),
    # The members in another order, no newline at the end, and room for no entry.
    (['{"trace":0,"tlb":8,"cpus":1,"copies":0,"frames":4}'], 0, "same 0\n"),
    ([SHAPE, MAPPED, STORED], 0, "same 9\n"),
    (
        [
            SHAPE,
            """\
[[0,"create"],"space 1"]
[[0,"map",1,4096,12288,0,0,"rw","rw"],"fine"]
""",
            STORED,
        ],
        1,
        "differs at 2\n",
    ),
    # Only the last one differs, and the first of two.
    ([SHAPE, MAPPED, '[[0,"idle"],"idled "]'], 1, "differs at 3\n"),
    (
        [SHAPE, """\
[[0,"create"],""]
[[0,"create"],""]
"""],
        1,
        "differs at 1\n",
    ),
    # A processor that isn't there is answered, and the answer is compared.
    ([SHAPE, '[[1,"idle"],"einval"]\n'], 0, "same 1\n"),
]

# Traces, and the fault of each.
BAD_TRACES = [
    ([""], "it has no lines: the first must be the machine's shape\n"),
    (["\n"], "line 1: it isn't JSON: "),
    (["[]"], "line 1: it isn't an object\n"),
    (
        ['{"copies":0,"cpus":1,"frames":4,"tlb":8}'],
        "line 1: the member \"trace\" is missing: cpus, tlb, frames, copies and trace are required\n",
    ),
    (
        ['{"copies":0,"cpus":1,"frames":4,"tlb":8,"trace":1,"steps":[]}'],
        'line 1: it has a member "steps", but only cpus, tlb, frames, copies and trace are allowed\n',
    ),
    (
        ['{"copies":0,"cpus":1,"frames":4,"tlb":8,"trace":-1}'],
        "line 1: the member \"trace\" is -1, which isn't a whole number up to 2^64 - 1\n",
    ),
    ([SHAPE, "\n", MAPPED], "line 2: it isn't JSON: "),
    ([SHAPE, MAPPED, "\n"], "line 4: it isn't JSON: "),
    ([SHAPE, "{}"], "line 2: it isn't a list of a step and"),
    ([SHAPE, '[[0,"create"]]'], "line 2: it isn't a list of a step and the text of its reply\n"),
    ([SHAPE, '[[0,"create"],"space 1",0]'], "line 2: it isn't a list of a step and the text of its reply\n"),
    ([SHAPE, '[[0,"create"],1]'], "line 2: it isn't a list of a step and the text of its reply\n"),
    ([SHAPE, MAPPED, '[[0,"make"],"fine"]'], "line 4: no act has this name\n"),
    ([SHAPE, '[[256,"idle"],"idled"]'], "line 2: the processor isn't a whole number up to 255\n"),
]


def traces_are_run_again():
    """Traces on a fresh volume, each with its fault. The disk stays as it is."""
    yield from makes_volume("replay.img")
    for parts, status, said in REPLAYED:
        write("replay.trace", "".join(parts))
        yield from prints("replay|replay.img|replay.trace", status, said)
    yield from holds("replay.img", image_of_one())
    yield from leaves("replay.img", "replay.trace")


def traces_are_refused():
    """Whole traces that are refused, and the fault of each. The trace is judged before the disk, which isn't
    there."""
    for parts, cause in BAD_TRACES:
        yield from refuses_trace("".join(parts).encode(), cause)
    yield from refuses_trace(b'"\xff"', "it isn't UTF-8\n")
    yield from leaves("refused.trace")
    clear()
    yield from complains("replay|none.img|refused.trace", 3, 'file "refused.trace": ')
    yield from leaves()


def refuses_trace(text, cause):
    write_bytes("refused.trace", text)
    yield from complains("replay|none.img|refused.trace", 1, f'trace "refused.trace": {cause}')


GROUPS = [traces_are_run_again, traces_are_refused]
