"""Volumes that are migrated to another layout."""

from files.program import bytes_of
from cases.images import (
    COMMITTED, FIRST_DUMP, KEY, WRITTEN_HOME, change_file, changed, image_of_four, image_of_one, image_of_two,
    image_with_log,
)
from cases.trial import agree, complains, holds, leaves, prints, shows, write_bytes
from cases.volumes import BOTH_CLOSED, BOTH_OPEN, DUMP_OF_TWO

# What of the image of the volume of layout 4 is other where `a` can't grow: it has 29 blocks, `a` has a capacity of
# 5,000 bytes and two blocks, and `b` is in block 28. The first byte of `a` is 65.
OF_OLDEST = [(19, 29), (70, 0x13), (71, 0x88), (79, 2), (123, 28), (106_496, 65)]

# The same with 66.
OF_OLDER = [(19, 29), (70, 0x13), (71, 0x88), (79, 2), (123, 28), (106_496, 66)]

# Journal 1 of a volume of layout 3 is open: mark 3 has the lengths 4,097 and 4,096 in the record for block 13, and 67
# in the one for block 14, the first of `a`.
OPEN_OF_THREE = [
    (28_672, 0xA7),
    (32_775, 3),
    (32_779, 2),
    (32_787, 13),
    (32_791, 14),
    (36_870, 0x10),
    (36_871, 1),
    (36_878, 0x10),
    (40_960, 67),
]

# The length of `a` in the volume of layout 4 is 4,097, and its first byte 67.
OF_THREE = [(102_406, 0x10), (102_407, 1), (106_496, 67)]

DUMP_OF_THREE = """\
a 4097
000000000000 43 00 00 00 00 00 00 00 00 00 00 00 00 00 00 00
b 4096
"""

DOWN = "disk \"none.img\": badshape: LAYOUT is 3, but must be at least 4, the old volume's layout\n"

# What migrations of a volume of layout 2 are refused, and the fault of each.
REFUSALS = [
    ("migrate|--layout|0|refused.img|no.img|4", "LAYOUT is 0, but must be 3 to 6\n"),
    ("migrate|--layout|1|refused.img|no.img|4", "LAYOUT is 1, but must be 3 to 6\n"),
    ("migrate|--layout|2|refused.img|no.img|4", "LAYOUT is 2, but must be 3 to 6\n"),
    ("migrate|--layout|7|refused.img|no.img|4", "LAYOUT is 7, but must be 3 to 6\n"),
    ("migrate|--layout|4|refused.img|no.img|0", "SLOTS is 0, but must be 2 to 65535\n"),
    ("migrate|--layout|4|refused.img|no.img|1", "SLOTS is 1, but must be 2 to 65535\n"),
    ("migrate|--layout|4|refused.img|no.img|65536", "SLOTS is 65536, but must be 2 to 65535\n"),
    ("migrate|--layout|3|refused.img|no.img|1021", "SLOTS is 1021, but must be 2 to 1020\n"),
    ("migrate|refused.img|no.img|65535", "SLOTS is 65535, but must be 2 to 1020\n"),
    ("migrate|--layout|5|--log|3|refused.img|no.img", "BLOCKS is 3, but must be 4 to 16777216\n"),
    ("migrate|--layout|6|--log|16777217|refused.img|no.img", "BLOCKS is 16777217, but must be 4 to 16777216\n"),
]

# The words that ask for no migration, and the fault of each.
BAD_WORDS = [
    ("migrate|--layout|3|refused.img|no.img", "the following required arguments were not provided: <SLOTS>"),
    ("migrate|--layout|5|refused.img|no.img|4", "SLOTS is only for layouts 3 and 4, but LAYOUT is 5"),
    ("migrate|--layout|6|refused.img|no.img|4", "SLOTS is only for layouts 3 and 4, but LAYOUT is 6"),
    ("migrate|--layout|5|refused.img|no.img|4|5", "unexpected argument '5' found"),
    ("migrate|--log|4|refused.img|no.img|4", "--log is only for layouts 5 and 6, but LAYOUT is 3"),
    ("migrate|--layout|4|--log|4|refused.img|no.img|4", "--log is only for layouts 5 and 6, but LAYOUT is 4"),
    ("migrate|--layout|4|--key|0123456789abcdef|refused.img|no.img|4", "--key is only for layout 6, but LAYOUT is 4"),
    ("migrate|--layout|5|--key|0123456789abcdef|refused.img|no.img", "--key is only for layout 6, but LAYOUT is 5"),
    ("migrate|--layout|6|--key|0123456789abcde|refused.img|no.img", 'KEY is "0123456789abcde"'),
    ("migrate|--layout|5|--log|4x|refused.img|no.img", 'BLOCKS is "4x"'),
]

def files_of(first, length, capacity):
    """The files of the images: `a`, with a first byte, and `b`, of 4,096 zeros."""
    return [(b"a", capacity, bytes([first]) + bytes(length - 1)), (b"b", 4096, bytes(4096))]


def image_of_29_blocks(changes):
    """The first 29 blocks of the image in layout 4 with these bytes changed."""
    return image_of_four(changes)[:118_784]


def layout_1_becomes_4():
    """A volume of layout 1 with an open journal becomes one of layout 4, with what the journal has. The old one was
    opened."""
    write_bytes("one.img", image_of_one(COMMITTED))
    yield from prints("migrate|--layout|4|one.img|of_one.img|4", 0, "migrated 29 blocks\n")
    yield from holds("of_one.img", image_of_29_blocks(OF_OLDEST))
    yield from prints("dump|of_one.img", 0, FIRST_DUMP)
    yield from holds("one.img", image_of_one(WRITTEN_HOME))
    yield from leaves("one.img", "of_one.img")


def layout_2_becomes_4():
    """So does one of layout 2, both of whose journals are open: the newer one's byte goes over."""
    write_bytes("two_old.img", image_of_two(BOTH_OPEN))
    yield from prints("migrate|--layout=4|--json|two_old.img|of_two.img|4", 0, '{"blocks":29}\n')
    yield from holds("of_two.img", image_of_29_blocks(OF_OLDER))
    yield from prints("dump|of_two.img", 0, DUMP_OF_TWO)
    yield from holds("two_old.img", image_of_two(BOTH_CLOSED))
    yield from leaves("two_old.img", "of_two.img")


def layout_3_becomes_4_and_4_stays():
    """One of layout 3 becomes one of layout 4, with its lengths and capacities. That becomes one of layout 4 with more
    slots, but none of layout 3."""
    make = "format|--layout|3|three.img|4|a=5000/12288|b=4096"
    yield from prints(make, 0, "formatted 18 blocks\n")
    change_file("three.img", OPEN_OF_THREE)
    yield from prints("migrate|--layout|4|three.img|of_three.img|4", 0, "migrated 30 blocks\n")
    yield from holds("of_three.img", image_of_four(OF_THREE))
    yield from prints("dump|of_three.img", 0, DUMP_OF_THREE)

    yield from prints("migrate|--layout|4|of_three.img|three.img|1021", 0, "migrated 4102 blocks\n")
    yield from prints("dump|three.img", 0, DUMP_OF_THREE)
    yield from complains("migrate|of_three.img|none.img|4", 3, DOWN)
    yield from complains("migrate|--layout|3|of_three.img|none.img|4", 3, DOWN)
    yield from holds("of_three.img", image_of_four(OF_THREE))
    yield from leaves("three.img", "of_three.img")


# A volume of each layout without a log: the bytes before it is opened and afterwards, and its files.
OLD = [
    (image_of_one(COMMITTED), image_of_one(WRITTEN_HOME), files_of(65, 5000, 5000)),
    (image_of_two(BOTH_OPEN), image_of_two(BOTH_CLOSED), files_of(66, 5000, 5000)),
    (image_of_four(OF_THREE), image_of_four(OF_THREE), files_of(67, 4097, 12_288)),
]


def each_layout_gets_a_log():
    """A volume of layout 1, 2 or 4 becomes one with a log, with what its journals have. The old one was opened."""
    for old, opened, files in OLD:
        for layout, key in ((5, ""), (6, f"--key|{KEY}|")):
            image = image_with_log(layout, files)
            blocks = len(image) // 4096
            write_bytes("old.img", old)
            migrate = f"migrate|--layout|{layout}|{key}--log|9|old.img|new.img"
            yield from prints(migrate, 0, f"migrated {blocks} blocks\n")
            yield from holds("new.img", image)
            yield from holds("old.img", opened)
            yield from prints("check|new.img", 0, "clean\n")
            migrate = f"migrate|--json|--preallocate|--layout={layout}|{key}--log=9|old.img|new.img"
            yield from prints(migrate, 0, f'{{"blocks":{blocks}}}\n')
            yield from holds("new.img", image)
    yield from leaves("old.img", "new.img")


def layout_3_gets_a_log():
    """So does one of layout 3, with a length that only its open journal has."""
    yield from prints("format|--layout|3|three.img|4|a=5000/12288|b=4096", 0, "formatted 18 blocks\n")
    change_file("three.img", OPEN_OF_THREE)
    for layout, key in ((5, ""), (6, f"--key|{KEY}|")):
        yield from prints(f"migrate|--layout|{layout}|{key}--log|9|three.img|new.img", 0, "migrated 18 blocks\n")
        yield from holds("new.img", image_with_log(layout, files_of(67, 4097, 12_288)))
        yield from prints("dump|three.img", 0, DUMP_OF_THREE)
    yield from leaves("three.img", "new.img")


def bytes_past_a_length_stay_behind():
    """What the old home blocks have past a length isn't copied. A file of several pieces is copied whole."""
    write_bytes("four.img", changed(image_of_four(OF_THREE), [(106_496 + 4097, 9), (106_496 + 12_287, 9)]))
    yield from prints("migrate|--layout|5|--log|9|four.img|new.img", 0, "migrated 18 blocks\n")
    yield from holds("new.img", image_with_log(5, files_of(67, 4097, 12_288)))

    content = bytes((7 + 13 * i) % 251 for i in range(70_001))
    yield from prints("format|--layout|3|long.img|4|a=70001/90000|b=0/1", 0, "formatted 37 blocks\n")
    image = bytes_of("long.img")
    write_bytes("long.img", image[:57_344] + content + image[57_344 + len(content) :])
    yield from prints(f"migrate|--layout|6|--key|{KEY}|--log|4|long.img|new.img", 0, "migrated 32 blocks\n")
    yield from holds("new.img", image_with_log(6, [(b"a", 90_000, content), (b"b", 1, b"")], 4))
    yield from leaves("four.img", "long.img", "new.img")


def a_log_has_16384_blocks_and_a_drawn_key_by_default():
    """As `format` has them. Two migrations differ in their keys alone."""
    write_bytes("four.img", image_of_four(OF_THREE))
    yield from prints("migrate|--layout|5|four.img|new.img", 0, "migrated 16393 blocks\n")
    yield from shows("info|new.img", "layout 5, log of 16384 blocks, 16393 blocks, 67145728 bytes\n")
    for path in ("one.img", "two.img"):
        yield from prints(f"migrate|--layout|6|--log|9|four.img|{path}", 0, "migrated 18 blocks\n")
    one, two = bytes_of("one.img"), bytes_of("two.img")
    wanted = image_with_log(6, files_of(67, 4097, 12_288))
    yield from agree("two keys", False, one[24:32] == two[24:32])
    for image in (one, two):
        yield from agree("the rest", wanted, image[:24] + wanted[24:32] + image[32:])
    yield from leaves("four.img", "new.img", "one.img", "two.img")


def a_volume_with_a_log_is_no_old_one():
    """Neither is a volume with a log migrated, whatever to."""
    image = image_with_log(5, files_of(67, 4097, 12_288))
    write_bytes("log.img", image)
    for words in ("migrate|log.img|no.img|4", "migrate|--layout|5|log.img|no.img", "migrate|--layout|6|log.img|no.img"):
        cause = "notavolume: the volume is in layout 5 or 6, which this command doesn't accept\n"
        yield from complains(words, 3, f'disk "log.img": {cause}')
    yield from holds("log.img", image)
    yield from leaves("log.img")


def migrations_are_refused():
    """No file is made, and the volume isn't changed."""
    write_bytes("refused.img", image_of_two(BOTH_CLOSED))
    for words, cause in REFUSALS:
        yield from complains(words, 3, f'disk "no.img": badshape: {cause}')
    for words, cause in BAD_WORDS:
        yield from complains(words, 2, cause)
    yield from holds("refused.img", image_of_two(BOTH_CLOSED))
    yield from leaves("refused.img")


GROUPS = [
    layout_1_becomes_4,
    layout_2_becomes_4,
    layout_3_becomes_4_and_4_stays,
    each_layout_gets_a_log,
    layout_3_gets_a_log,
    bytes_past_a_length_stay_behind,
    a_log_has_16384_blocks_and_a_drawn_key_by_default,
    a_volume_with_a_log_is_no_old_one,
    migrations_are_refused,
]
