"""Volumes that are made, and images that are printed or refused."""

from files.program import bytes_of, write
from cases.images import FIRST_SCRIPT, image_of_one, image_of_two
from cases.trial import agree, holds, leaves, prints, write_bytes

# Mark 1 has 65 in the first page of `a`, mark 2 has 66 there, and both journals are open.
BOTH_OPEN = [
    (4096, 0xA7),
    (8199, 1),
    (8203, 1),
    (8211, 13),
    (12_288, 65),
    (28_672, 0xA7),
    (32_775, 2),
    (32_779, 1),
    (32_787, 13),
    (36_864, 66),
]

# They are closed, and home block 13 has what the newer one has.
BOTH_CLOSED = [
    (8199, 1),
    (8203, 1),
    (8211, 13),
    (12_288, 65),
    (32_775, 2),
    (32_779, 1),
    (32_787, 13),
    (36_864, 66),
    (53_248, 66),
]

DUMP_OF_TWO = """\
a 5000
000000000000 42 00 00 00 00 00 00 00 00 00 00 00 00 00 00 00
b 4096
"""

FOREIGN = "notavolume: the file doesn't begin with FAMSYNC1, FAMSYNC2, FAMSYNC3 or FAMSYNC4"

SPOILT = "damaged: the super block is invalid"

SPOILT_JOURNAL = "damaged: the descriptor of an open journal is invalid, or two journals have the same mark"

# What `dump` says in place of this.
OF_DUMP = {
    FOREIGN: "notavolume: the file doesn't begin with FAMSYNC1, FAMSYNC2, FAMSYNC3, FAMSYNC4, FAMSYNC5 or FAMSYNC6",
}

# What is changed in the image of a volume, and the fault then.
SPOILT_IMAGES = [
    ([(0, ord("G"))], FOREIGN),
    ([(7, ord("2"))], SPOILT),
    ([(7, ord("5"))], SPOILT),
    ([(7, ord("6"))], SPOILT),
    ([(7, ord("7"))], FOREIGN),
    # The count of files.
    ([(11, 0)], SPOILT),
    ([(11, 65)], SPOILT),
    # The record slots, and the number of blocks.
    ([(15, 0)], SPOILT),
    ([(14, 3), (15, 0xFD)], SPOILT),
    ([(15, 5)], SPOILT),
    ([(19, 9)], SPOILT),
    ([(19, 11)], SPOILT),
    ([(20, 1)], SPOILT),
    # Names, and the length of `a`.
    ([(80, ord("a"))], SPOILT),
    ([(34, ord("a"))], SPOILT),
    ([(32, ord(" "))], SPOILT),
    ([(70, 0), (71, 0)], SPOILT),
    ([(70, 0x10), (71, 0)], SPOILT),
    ([(70, 0x20), (71, 1)], SPOILT),
    ([(4095, 1)], SPOILT),
    # An open gate over a descriptor of zeros, and with its mark, its count and its home blocks changed.
    ([(4096, 0xA7)], SPOILT_JOURNAL),
    ([(4096, 0xA7), (8199, 1)], SPOILT_JOURNAL),
    ([(4096, 0xA7), (8199, 1), (8203, 5), (8211, 7), (8215, 8)], SPOILT_JOURNAL),
    ([(4096, 0xA7), (8203, 1), (8211, 7)], SPOILT_JOURNAL),
    ([(4096, 0xA7), (8199, 1), (8203, 2), (8211, 8), (8215, 7)], SPOILT_JOURNAL),
    ([(4096, 0xA7), (8199, 1), (8203, 2), (8211, 7), (8215, 7)], SPOILT_JOURNAL),
    ([(4096, 0xA7), (8199, 1), (8203, 1), (8211, 6)], SPOILT_JOURNAL),
    ([(4096, 0xA7), (8199, 1), (8203, 1), (8211, 10)], SPOILT_JOURNAL),
]

# How many bytes of a volume are there, and the fault then.
CUT_IMAGES = [
    (0, "notavolume: the file has 0 bytes, but a volume has at least 4096"),
    (4095, "notavolume: the file has 4095 bytes, but a volume has at least 4096"),
    (36_864, "damaged: the file has 36864 bytes, but its super block requires 40960"),
]

# A closed gate over any descriptor, an open journal, whose records stand for their home blocks, and a file whose last
# bytes aren't zero: what is changed in the image of a volume, and its dump.
DUMPED_IMAGES = [
    ([(8199, 1), (8203, 9), (8211, 1)], "a 5000\nb 4096\n"),
    ([(4096, 0x3C), (8199, 1), (8203, 9), (8211, 1)], "a 5000\nb 4096\n"),
    (
        [(4096, 0xA7), (8199, 1), (8203, 1), (8211, 8), (13_191, 7), (13_192, 8), (36_865, 255)],
        "a 5000\n000000001380 00 00 00 00 00 00 00 07\nb 4096\n"
        "000000000000 00 ff 00 00 00 00 00 00 00 00 00 00 00 00 00 00\n",
    ),
    (
        [(40_959, 0x39)],
        "a 5000\nb 4096\n000000000ff0 00 00 00 00 00 00 00 00 00 00 00 00 00 00 00 39\n",
    ),
]

NO_STEPS = '{"cpus":1,"tlb":8,"frames":4,"copies":0,"steps":[]}'


def a_volume_has_two_journals():
    """A volume of layout 2 is made and printed, with what open journals have, the newer one over the older. A run opens
    it first."""
    make = "format|--layout|2|two.img|4|a=5000|b=4096"
    yield from prints(make, 0, "formatted 16 blocks\n")
    yield from holds("two.img", image_of_two())
    yield from prints("dump|two.img", 0, "a 5000\nb 4096\n")

    write_bytes("two.img", image_of_two(BOTH_OPEN))
    yield from prints("dump|two.img", 0, DUMP_OF_TWO)
    yield from holds("two.img", image_of_two(BOTH_OPEN))

    write("two.json", NO_STEPS)
    yield from prints("run|two.img|two.json", 0)
    yield from holds("two.img", image_of_two(BOTH_CLOSED))
    yield from leaves("two.img", "two.json")


def files_are_made_anew():
    """Names are cut at the last `=`, and leading zeros are digits. An old file is replaced, and none of its bytes
    stays: all are zero after the table of two files."""
    write_bytes("anew.img", b"\xa7" * 100_000)
    make = "format|anew.img|01|a=b=05|=c=4097"
    yield from prints(make, 0, "formatted 7 blocks\n")
    yield from prints("dump|anew.img", 0, "a=b 5\n=c 4097\n")
    after_table = bytes_of("anew.img")[128:]
    yield from agree("its length after the table", 28_672 - 128, len(after_table))
    yield from agree("its bytes after the table that aren't zero", b"", after_table.replace(b"\0", b""))
    yield from leaves("anew.img")


def images_are_refused():
    """Images that no volume has, the fault of each, and that none is written to."""
    write("images.json", FIRST_SCRIPT)
    for changes, cause in SPOILT_IMAGES:
        yield from is_refused(image_of_one(changes), cause)
    for length, cause in CUT_IMAGES:
        yield from is_refused(image_of_one()[:length], cause)
    yield from leaves("images.img", "images.json")


def is_refused(image, cause):
    """An image is refused with status 3 and for this cause, to print and to run, and isn't written to."""
    begin = 'famsync: disk "images.img": '
    write_bytes("images.img", image)
    yield from prints("dump|images.img", 3, "", f"{begin}{OF_DUMP.get(cause, cause)}\n")
    yield from prints("run|images.img|images.json", 3, "", f"{begin}{cause}\n")
    yield from holds("images.img", image)


def images_are_dumped():
    """Images that are volumes, and their dumps, which leave the files as they are."""
    for changes, text in DUMPED_IMAGES:
        write_bytes("dumped.img", image_of_one(changes))
        yield from prints("dump|dumped.img", 0, text)
        yield from holds("dumped.img", image_of_one(changes))
    yield from leaves("dumped.img")


GROUPS = [a_volume_has_two_journals, files_are_made_anew, images_are_refused, images_are_dumped]
