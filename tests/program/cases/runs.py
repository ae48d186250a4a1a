"""Scripts that are run, what they print, and what they leave in the volume."""

from files.program import write
from cases.images import (
    FIRST_DUMP, FIRST_REPLIES, FIRST_SCRIPT, WRITTEN_HOME, image_of_four, image_of_one, makes_volume,
)
from cases.trial import holds, leaves, prints

# Bytes are stored in the first page of `a`, one after the other, and each is committed and written home.
BEGIN = (
    '{"cpus":1,"tlb":8,"frames":3,"copies":0,"steps":[[0,"create"],[0,"map",1,4096,12288,0,0,"rw","rw"],'
    '[0,"switch",1,"drop"]'
)

STORED_BYTES = [65, 66, 67, 68, 69]

STORE = ',[0,"fix",4096,"write"],[0,"store",4096,['

COMMIT = ']],[0,"msync",4096,4096,4],[0,"change"]' + ',[0,"flush"]' * 9

REPLIES = (
    "space 1\nmapped\nswitched\n"
    "fixed\nstored\nbegun\nmarked 1\ngoing\ngoing\ngoing\ngoing\ncommitted 1\ngoing\ngoing\ngoing\ndone 1\n"
    "fixed\nstored\nbegun\nmarked 2\ngoing\ngoing\ngoing\ngoing\ncommitted 2\ngoing\ngoing\ngoing\ndone 2\n"
    "fixed\nstored\nbegun\nmarked 3\ngoing\ngoing\ngoing\ngoing\ncommitted 3\ngoing\ngoing\ngoing\ndone 3\n"
    "fixed\nstored\nbegun\nmarked 4\ngoing\ngoing\ngoing\ngoing\ncommitted 4\ngoing\ngoing\ngoing\ndone 4\n"
    "fixed\nstored\nbegun\nmarked 5\ngoing\ngoing\ngoing\ngoing\ncommitted 5\ngoing\ngoing\ngoing\ndone 5\n"
    "nothing\n"
)

# The descriptor of each journal has its newest mark and one record, for block 26, and the record its byte: journal 0
# was used for marks 1 and 5. The gates are closed, and block 26 has the byte of mark 5.
AFTER = [
    (8199, 5),
    (8203, 1),
    (8211, 26),
    (12_288, 69),
    (32_775, 2),
    (32_779, 1),
    (32_787, 26),
    (36_864, 66),
    (57_351, 3),
    (57_355, 1),
    (57_363, 26),
    (61_440, 67),
    (81_927, 4),
    (81_931, 1),
    (81_939, 26),
    (86_016, 68),
    (106_496, 69),
]

# A new length is in the commit with the page in which the file ended and the page that it gets. The commit has three
# records: of the lengths, which are in block 25, and of two pages of `a`.
GROWS = (
    ',[0,"fix",8192,"read"],[0,"setlength",0,9000],[0,"change"],[0,"msync",4096,4096,4],[0,"change"]'
    + ',[0,"flush"]' * 13
    + "]}"
)

GROWN = (
    "space 1\nmapped\nswitched\nfixed\nbegun\nresized\nbegun\nmarked 1\ngoing\ngoing\ngoing\ngoing\ngoing\ngoing\n"
    "committed 1\ngoing\ngoing\ngoing\ngoing\ngoing\ndone 1\n"
)

# Mark 1 has records for blocks 25, 27 and 28, and its first record, as block 25, has 9,000 bytes for `a`.
AFTER_GROWING = [
    (8199, 1),
    (8203, 3),
    (8211, 25),
    (8215, 27),
    (8219, 28),
    (12_294, 0x23),
    (12_295, 0x28),
    (12_302, 0x10),
    (102_406, 0x23),
    (102_407, 0x28),
]

MAKE_FOUR = "format|--layout|4|{}|4|a=5000/12288|b=4096"


def the_first_script_commits_a_byte():
    """A volume is made, a script stores, commits and writes home, and the dump shows the byte."""
    write("first_script.json", FIRST_SCRIPT)
    yield from makes_volume("first_script.img")
    yield from holds("first_script.img", image_of_one())
    yield from prints("run|first_script.img|first_script.json", 0, FIRST_REPLIES)
    yield from holds("first_script.img", image_of_one(WRITTEN_HOME))
    yield from prints("dump|first_script.img", 0, FIRST_DUMP)
    yield from leaves("first_script.img", "first_script.json")


def four_journals_are_used_in_turn():
    yield from prints(MAKE_FOUR.format("turns.img"), 0, "formatted 30 blocks\n")
    commits = "".join(f"{STORE}{byte}{COMMIT}" for byte in STORED_BYTES)
    write("turns.json", f'{BEGIN}{commits},[0,"flush"]]}}')
    yield from prints("run|turns.img|turns.json", 0, REPLIES)
    yield from holds("turns.img", image_of_four(AFTER))
    yield from leaves("turns.img", "turns.json")


def a_file_of_layout_4_grows():
    yield from prints(MAKE_FOUR.format("grows.img"), 0, "formatted 30 blocks\n")
    write("grows.json", BEGIN + GROWS)
    yield from prints("run|grows.img|grows.json", 0, GROWN)
    yield from holds("grows.img", image_of_four(AFTER_GROWING))
    yield from prints("dump|grows.img", 0, "a 9000\nb 4096\n")
    yield from leaves("grows.img", "grows.json")


GROUPS = [the_first_script_commits_a_byte, four_journals_are_used_in_turn, a_file_of_layout_4_grows]
