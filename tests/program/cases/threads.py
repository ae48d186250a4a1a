"""Programs that run in threads, and their traces, which `replay` runs again on the volume from before."""

import json

from files.program import write
from cases.images import image_of_one, makes_volume
from cases.trial import agree, complains, ended_so, holds, leaves, prints, run

# Two processors share space 1, in which file `a` is mapped at 4,096.
TWO = (
    '{"cpus":2,"tlb":8,"frames":4,"copies":0,"steps":[[0,"create"],[0,"map",1,4096,12288,0,0,"rw","rw"],'
    '[0,"switch",1,"drop"],[1,"switch",1,"drop"]],'
)

# One processor stores and commits, and the other waits for the byte and stores beside it.
ROW = '"programs":[[["store",4096,[1]],["msync",4096,4096,4]],[["await",4096,1],["store",4097,[2]]]]}'

# Each waits for a byte that the other one stores, so neither can end before the other has begun.
EACH_WAITS = (
    '"programs":[[["store",4096,[1]],["await",4097,2],["store",4098,[3]]],'
    '[["await",4096,1],["store",4097,[2]],["await",4098,3]]]}'
)

# The first row of the first file, with or without the second byte.
ROW_DUMPS = [
    """\
a 5000
000000000000 01 00 00 00 00 00 00 00 00 00 00 00 00 00 00 00
b 4096
""",
    """\
a 5000
000000000000 01 02 00 00 00 00 00 00 00 00 00 00 00 00 00 00
b 4096
""",
]

# Sixteen processors in space 1, in which the files are mapped at 4,096 and at 16,384.
SIXTEEN = (
    '{"cpus":16,"tlb":2,"frames":4,"copies":2,"trace":100000,"steps":[[0,"create"],'
    '[0,"map",1,4096,12288,0,0,"rw","rw"],[0,"map",1,16384,4096,1,0,"rw","rw"],'
    + ",".join(f'[{cpu},"switch",1,"drop"]' for cpu in range(16))
    + '],"programs":['
)

# Four programs over four pages: one commits, one takes rights and gives them back, one has an alias of a page, and one
# takes pages out of memory.
FOUR = (
    '[["store",4096,[1]],["store",16384,[1]],["msync",4096,4096,4],["store",4096,[2]],["msync",4096,4096,1]],\n'
    '[["store",8192,[3]],["protect",1,8192,4096,"r"],["load",8192,1],["protect",1,8192,4096,"rw"],'
    '["store",8192,[4]],["msync",4096,4096,4]],\n'
    '[["map",1,32768,4096,0,0,"rw","rw"],["store",32768,[5]],["load",4096,1],["unmap",1,32768,4096],'
    '["store",12288,[6]]],\n'
    '[["reclaim",0,0],["load",4097,1],["reclaim",0,1],["store",8193,[7]],["reclaim",1,0],["load",16384,1]]'
)

# Scripts that are refused before the disk is opened, and the fault of each.
REFUSED = [
    ([TWO, '"trace":10,"programs":[[]]}'], "it has 1 programs, but needs one for each of 2 processors\n"),
    (
        [
            '{"cpus":1,"tlb":8,"frames":4,"copies":0,"trace":10,"steps":[[0,"create"],[1,"idle"]],"programs":[[]]}',
        ],
        "step 2 names a processor that doesn't exist: cpus is 1\n",
    ),
    ([TWO, '"trace":10,"programs":[[],[["flush"]]]}'], 'program 2, command 1, ["flush"]: no command has this name\n'),
]

# Capacities that no trace has.
CAPACITIES = [
    ('"trace":0,', "badshape: trace is 0, but must be 1 to 1000000\n"),
    ('"trace":1000001,', "badshape: trace is 1000001, but must be 1 to 1000000\n"),
]


def entries_of(trace):
    """How many lines a trace has after the first."""
    return max(0, len(trace.splitlines()) - 1)


def makes_two_volumes():
    """A volume, and one that stays as this one was."""
    yield from makes_volume("v.img")
    yield from makes_volume("before.img")


def replays(trace, status, said):
    write("v.trace", trace)
    yield from prints("replay|before.img|v.trace", status, said)


def is_replayed(ran, least):
    """Programs ended well, with at least LEAST entries in their trace, and the trace is the same when it is run
    again."""
    entries = entries_of(ran.out)
    yield from ended_so("threads", ran, 0, ran.out)
    yield from agree(f"threads: at least {least} entries", True, entries >= least)
    yield from replays(ran.out, 0, f"same {entries}\n")


def runs_and_replays(script, least):
    yield from makes_two_volumes()
    write("v.json", script)
    yield from is_replayed(run("threads|v.img|v.json"), least)
    yield from holds("before.img", image_of_one())
    yield from leaves("v.img", "before.img", "v.json", "v.trace")


def a_changed_trace_differs(trace):
    """The second entry, which is a step of the script, is answered otherwise than its changed text says."""
    before, mapped, after = trace.partition('"mapped"]\n')
    yield from agree("the second entry is that of the map", '"mapped"]\n', mapped)
    yield from replays(f'{before}"fine"]\n{after}', 1, "differs at 2\n")


def a_commit_beside_a_store():
    """A commit in one thread beside a store in another: the commit has the first byte, and the second one or not."""
    yield from makes_two_volumes()
    write("v.json", f'{TWO}"trace":1000,{ROW}')
    ran = run("threads|v.img|v.json")
    yield from is_replayed(ran, 12)
    yield from a_changed_trace_differs(ran.out)
    dumped = run("dump|v.img")
    wanted = dumped.out if dumped.out in ROW_DUMPS else ROW_DUMPS[0]
    yield from ended_so("dump|v.img", dumped, 0, wanted)
    yield from leaves("v.img", "before.img", "v.json", "v.trace")


def two_threads_that_wait_for_each_other():
    yield from runs_and_replays(f'{TWO}"trace":1000,{EACH_WAITS}', 12)


def leaves_the_same(trace):
    """A run of the traced steps on the volume from before has the same replies, and leaves the same bytes."""
    shape, *entries = map(json.loads, trace.splitlines())
    del shape["trace"]
    write("again.json", json.dumps({**shape, "steps": [step for step, _ in entries]}))
    yield from prints("run|before.img|again.json", 0, "".join(reply + "\n" for _, reply in entries))
    with open("v.img", "rb") as volume:
        yield from holds("before.img", volume.read())


def sixteen_threads_over_four_pages():
    yield from makes_two_volumes()
    write("v.json", SIXTEEN + ",".join([FOUR] * 4) + "]}")
    ran = run("threads|v.img|v.json")
    yield from is_replayed(ran, 100)
    yield from leaves_the_same(ran.out)
    yield from leaves("v.img", "before.img", "v.json", "v.trace", "again.json")


def full_traces_are_printed():
    """Where the trace is full, in the steps and in the programs, it is printed."""
    for capacity in (2, 6):
        yield from runs_and_replays(f'{TWO}"trace":{capacity},{ROW}', capacity)


def programs_are_refused():
    """Scripts that are refused before the disk is opened, and capacities that are after."""
    yield from makes_volume("untouched.img")
    for parts, cause in REFUSED:
        yield from refuses("".join(parts), 1, f'script "untouched.json": {cause}')
    for capacity, cause in CAPACITIES:
        yield from refuses(TWO + capacity + ROW, 3, f'disk "untouched.img": {cause}')
    yield from holds("untouched.img", image_of_one())
    yield from leaves("untouched.img", "untouched.json")


def refuses(script, status, cause):
    write("untouched.json", script)
    yield from complains("threads|untouched.img|untouched.json", status, cause)


GROUPS = [
    a_commit_beside_a_store,
    two_threads_that_wait_for_each_other,
    sixteen_threads_over_four_pages,
    full_traces_are_printed,
    programs_are_refused,
]
