"""Volumes of layout 4: made, looked at, opened, written to, and refused."""

from files.program import write
from cases.images import change_file, image_of_four
from cases.trial import complains, holds, leaves, prints, write_bytes

CLEAN = """\
layout 4, 4 slots, 30 blocks, 122880 bytes
file a: 5000 bytes, 3 pages, home 26, capacity 12288
file b: 4096 bytes, 1 pages, home 29
"""

CLOSED = """\
journal 0: gate 00 closed
journal 1: gate 00 closed
journal 2: gate 00 closed
journal 3: gate 00 closed
opening makes 7 device calls
"""

# Journal 1 has mark 5, with the lengths 4,097 and 4,096 and with 65 in the first page of `a`. Journal 2 has mark 6,
# with 66 there and 67 in `b`. Both are open.
TWO_OPEN = [
    (28_672, 0xA7),
    (32_775, 5),
    (32_779, 2),
    (32_787, 25),
    (32_791, 26),
    (36_870, 0x10),
    (36_871, 1),
    (36_878, 0x10),
    (40_960, 65),
    (53_248, 0xA7),
    (57_351, 6),
    (57_355, 2),
    (57_363, 26),
    (57_367, 29),
    (61_440, 66),
    (65_536, 67),
]

# They are closed, and the home blocks 25, 26 and 29 have what the newest record of each has.
TWO_CLOSED = [
    (32_775, 5),
    (32_779, 2),
    (32_787, 25),
    (32_791, 26),
    (36_870, 0x10),
    (36_871, 1),
    (36_878, 0x10),
    (40_960, 65),
    (57_351, 6),
    (57_355, 2),
    (57_363, 26),
    (57_367, 29),
    (61_440, 66),
    (65_536, 67),
    (102_406, 0x10),
    (102_407, 1),
    (106_496, 66),
    (118_784, 67),
]

OPEN_FILES = """\
layout 4, 4 slots, 30 blocks, 122880 bytes
file a: 4097 bytes, 3 pages, home 26, capacity 12288
file b: 4096 bytes, 1 pages, home 29
"""

OPEN_JOURNALS = """\
journal 0: gate 00 closed
journal 1: gate a7 open, mark 5, 2 blocks: block 25 a:0
journal 2: gate a7 open, mark 6, 2 blocks: a:0 b:0
journal 3: gate 00 closed
opening makes 23 device calls
"""

OPEN_DUMP = """\
a 4097
000000000000 42 00 00 00 00 00 00 00 00 00 00 00 00 00 00 00
b 4096
000000000000 43 00 00 00 00 00 00 00 00 00 00 00 00 00 00 00
"""

SPOILT = "damaged: the super block is invalid"

SPOILT_JOURNAL = (
    "damaged: the descriptor of an open journal or the lengths block is invalid, or two journals have the same mark"
)

# What is changed in the image of the volume of layout 4, and the fault then.
SPOILT_IMAGES = [
    # Another layout of this shape.
    ([(7, ord("3"))], SPOILT),
    # The record slots: none, 1, 5 and 65,536.
    ([(15, 0)], SPOILT),
    ([(15, 1)], SPOILT),
    ([(15, 5)], SPOILT),
    ([(13, 1), (15, 0)], SPOILT),
    # The number of blocks.
    ([(19, 29)], SPOILT),
    ([(19, 31)], SPOILT),
    # The length of `a` is above its capacity, and a byte after the lengths isn't zero.
    ([(102_406, 0x31)], SPOILT_JOURNAL),
    ([(102_416, 1)], SPOILT_JOURNAL),
    # Journal 3 is open over a descriptor of zeros.
    ([(77_824, 0xA7)], SPOILT_JOURNAL),
    # Journals 0 and 3 are open with mark 1, both with a record for block 26.
    (
        [
            (4096, 0xA7),
            (8199, 1),
            (8203, 1),
            (8211, 26),
            (77_824, 0xA7),
            (81_927, 1),
            (81_931, 1),
            (81_939, 26),
        ],
        SPOILT_JOURNAL,
    ),
    # Journal 3 is open with a record for block 24, which is no home block, and for block 30, which isn't there.
    ([(77_824, 0xA7), (81_927, 1), (81_931, 1), (81_939, 24)], SPOILT_JOURNAL),
    ([(77_824, 0xA7), (81_927, 1), (81_931, 1), (81_939, 30)], SPOILT_JOURNAL),
]

LONG = """\
layout 4, 1021 slots, 4099 blocks, 16789504 bytes
file a: 1 bytes, 1 pages, home 4098
"""

LONG_JOURNALS = """\
journal 0: gate 00 closed
journal 1: gate a7 open, mark 1, 1 blocks: a:0
journal 2: gate 00 closed
journal 3: gate 00 closed
opening makes 13 device calls
"""

# Journal 1 of a volume with 1,021 slots is open, with 65 for block 4,098.
LONG_OPEN = [
    (4_198_400, 0xA7),
    (4_202_503, 1),
    (4_202_507, 1),
    (4_202_514, 0x10),
    (4_202_515, 2),
    (4_210_688, 65),
]


def a_volume_has_four_journals():
    """A volume of layout 4 is made, and looked at."""
    make = "format|--layout|4|four.img|4|a=5000/12288|b=4096"
    yield from prints(make, 0, "formatted 30 blocks\n")
    yield from holds("four.img", image_of_four())
    yield from prints("info|four.img", 0, CLEAN + CLOSED)
    yield from prints("check|four.img", 0, "clean\n")
    yield from prints("dump|four.img", 0, "a 5000\nb 4096\n")
    yield from leaves("four.img")


def two_of_four_journals_are_open():
    """What open journals have is seen, the newer one over the older. A run opens the volume first."""
    write_bytes("open_four.img", image_of_four(TWO_OPEN))
    yield from prints("info|open_four.img", 0, OPEN_FILES + OPEN_JOURNALS)
    yield from prints("check|open_four.img", 1, "needs opening\n")
    yield from prints("dump|open_four.img", 0, OPEN_DUMP)
    yield from prints("export|open_four.img|b|four.copy", 0, "exported 4096 bytes\n")
    yield from holds("open_four.img", image_of_four(TWO_OPEN))

    write("open_four.json", '{"cpus":1,"tlb":8,"frames":3,"copies":0,"steps":[]}')
    yield from prints("run|open_four.img|open_four.json", 0)
    yield from holds("open_four.img", image_of_four(TWO_CLOSED))
    yield from leaves("open_four.img", "open_four.json", "four.copy")


def images_of_layout_4_are_refused():
    """Images that no volume of layout 4 has, the fault of each, and that none is written to."""
    for changes, cause in SPOILT_IMAGES:
        write_bytes("spoilt_four.img", image_of_four(changes))
        yield from prints("check|spoilt_four.img", 3, f"{cause}\n")
        yield from prints("dump|spoilt_four.img", 3, "", f'famsync: disk "spoilt_four.img": {cause}\n')
        yield from holds("spoilt_four.img", image_of_four(changes))
    yield from leaves("spoilt_four.img")


def a_descriptor_has_two_blocks():
    """With 1,021 slots a descriptor has two blocks. Journal 1 has its gate in block 1,025, its descriptor in blocks
    1,026 and 1,027 and its first record in block 1,028; it is opened. Then the descriptor's last byte isn't 0."""
    yield from prints("format|--layout|4|long.img|1021|a=1", 0, "formatted 4099 blocks\n")
    change_file("long.img", LONG_OPEN)
    yield from prints("info|long.img", 0, LONG + LONG_JOURNALS)
    yield from prints("dump|long.img", 0, "a 1\n000000000000 41\n")
    change_file("long.img", [(4_210_687, 1)])
    yield from prints("check|long.img", 3, f"{SPOILT_JOURNAL}\n")
    yield from leaves("long.img")


def a_frame_less_is_served():
    """A machine has a frame less than the volume has record slots, as the lengths may need one."""
    yield from prints("format|--layout|4|frames_four.img|4|a=1", 0, "formatted 27 blocks\n")
    write("frames_four.json", '{"cpus":1,"tlb":8,"frames":4,"copies":0,"steps":[]}')
    yield from complains(
        "run|frames_four.img|frames_four.json",
        3,
        'disk "frames_four.img": badshape: frames is 4, but must be 1 to 3: '
        "the volume has 3 record slots and one for the lengths\n",
    )
    yield from leaves("frames_four.img", "frames_four.json")


GROUPS = [
    a_volume_has_four_journals,
    two_of_four_journals_are_open,
    images_of_layout_4_are_refused,
    a_descriptor_has_two_blocks,
    a_frame_less_is_served,
]
