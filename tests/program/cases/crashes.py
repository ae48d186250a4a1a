"""What a crash within each device call of a script leaves."""

from files.program import write
from cases.images import image_of_one, makes_volume
from cases.trial import clear, complains, holds, leaves, prints

SHAPE = '{"cpus":1,"tlb":8,"frames":4,"copies":0,"steps":['

# One byte is stored in page 0 of `a`, and committed.
STEPS = """\
[0,"create"],[0,"map",1,4096,12288,0,0,"rw","rw"],[0,"switch",1,"drop"],
[0,"fix",4096,"write"],[0,"store",4096,[65]],[0,"msync",4096,4096,4],[0,"change"],
[0,"flush"],[0,"flush"],[0,"flush"],[0,"flush"],[0,"flush"],
[0,"flush"],[0,"flush"],[0,"flush"],[0,"flush"]]}"""

# By the rules: until the gate is written only the old files; within that and its sync the old ones or the new ones,
# where 0xA7 alone is an open gate, and a half that is written has the gate's byte; from then on only the new ones. A
# block that was written is tried in six ways, and two in two more.
OPENING = """\
    1 read  super                     4096   mark 0 x1
    2 sync                               0   mark 0 x1
    3 read  gate 0                       1   mark 0 x1
            space 1
            mapped
            switched
    4 read  page a:0                  4096   mark 0 x1
            fixed
            stored
            begun
            marked 1
"""

COMMIT = """\
    5 write record 0:0                4096   mark 0 x6
            going
    6 write descriptor 0              4096   mark 0 x8
            going
    7 sync                               0   mark 0 x8
            going
    8 write gate 0                       1   mark 0 x3  mark 1 x3
            going
    9 sync                               0   mark 0 x3  mark 1 x3
            committed 1
"""

REST = """\
   10 read  record 0:0                4096   mark 1 x1
   11 write page a:0                  4096   mark 1 x6
            going
   12 sync                               0   mark 1 x6
            going
   13 write gate 0                       1   mark 1 x6
            going
   14 sync                               0   mark 1 x6
            done 1
  end                                        mark 1 x1
14 calls, 64 crash states opened; at most 30 mixtures of blocks for each call
"""

SHAPE_OF_FOUR = '{"cpus":1,"tlb":8,"frames":3,"copies":0,"steps":['

# The same with the four journals of layout 4, with 4 record slots: opening reads four gates, and the lengths in block
# 25.
OPENING_OF_FOUR = """\
    1 read  super                     4096   mark 0 x1
    2 sync                               0   mark 0 x1
    3 read  gate 0                       1   mark 0 x1
    4 read  gate 1                       1   mark 0 x1
    5 read  gate 2                       1   mark 0 x1
    6 read  gate 3                       1   mark 0 x1
    7 read  home 25                   4096   mark 0 x1
            space 1
            mapped
            switched
    8 read  page a:0                  4096   mark 0 x1
            fixed
            stored
            begun
            marked 1
"""

COMMIT_OF_FOUR = """\
    9 write record 0:0                4096   mark 0 x6
            going
   10 write descriptor 0              4096   mark 0 x8
            going
   11 sync                               0   mark 0 x8
            going
   12 write gate 0                       1   mark 0 x3  mark 1 x3
            going
   13 sync                               0   mark 0 x3  mark 1 x3
            committed 1
"""

REST_OF_FOUR = """\
   14 read  record 0:0                4096   mark 1 x1
   15 write page a:0                  4096   mark 1 x6
            going
   16 sync                               0   mark 1 x6
            going
   17 write gate 0                       1   mark 1 x6
            going
   18 sync                               0   mark 1 x6
            done 1
  end                                        mark 1 x1
18 calls, 68 crash states opened; at most 30 mixtures of blocks for each call
"""


def each_crash_leaves_a_mark():
    """The volume stays as it is."""
    yield from makes_volume("crashes.img")
    write("crashes.json", SHAPE + STEPS)
    words = "crashes|crashes.img|crashes.json"
    yield from prints(words, 0, OPENING + COMMIT + REST)
    yield from holds("crashes.img", image_of_one())
    yield from leaves("crashes.img", "crashes.json")
    clear()
    yield from complains(words, 3, 'file "crashes.json": ')
    yield from leaves()


def each_crash_leaves_a_mark_of_four_journals():
    make = "format|--layout|4|crashes_four.img|4|a=5000/12288|b=4096"
    yield from prints(make, 0, "formatted 30 blocks\n")
    write("crashes_four.json", SHAPE_OF_FOUR + STEPS)
    lines = OPENING_OF_FOUR + COMMIT_OF_FOUR + REST_OF_FOUR
    yield from prints("crashes|crashes_four.img|crashes_four.json", 0, lines)
    yield from leaves("crashes_four.img", "crashes_four.json")


GROUPS = [each_crash_leaves_a_mark, each_crash_leaves_a_mark_of_four_journals]
