"""Volumes with a log, in layouts 5 and 6: made, looked at, run on, and refused by commands that don't serve them."""

import subprocess

from files.program import PROGRAM, Outcome, bytes_of, write
from lib.xxh64 import xxh64
from cases.images import change_file, changed, made_of
from cases.runs import BEGIN, COMMIT, GROWN, GROWS, REPLIES, STORE, STORED_BYTES
from cases.trial import (
    agree, complained, complains, ended_so, holds, leaves, prints, run, shows, words_of, write_bytes,
)

# What isn't zero in a volume of layout 5 of the files `a` of 5,000 bytes, which may grow to 12,288, and `b` of 4,096,
# with a log of 9 blocks. It has 18 blocks. The starts are in blocks 2 and 3, the log is in blocks 4 to 12, the lengths
# are in block 13, `a` is in blocks 14 to 16, and `b` in block 17.
FIVE = (
    (0, b"FAMSYNC5"),
    (8, bytes([0, 0, 0, 2, 0, 0, 0, 9, 0, 0, 0, 18, 0, 0, 0, 4])),
    (32, b"a"),
    (64, bytes([0, 0, 0, 0, 0, 0, 0x30, 0, 0, 0, 0, 4, 0, 0, 0, 3])),
    (80, b"b"),
    (112, bytes([0, 0, 0, 0, 0, 0, 0x10, 0, 0, 0, 0, 7, 0, 0, 0, 1])),
    (8192, bytes([0, 0, 0, 0, 0, 0, 0, 1, 0, 0, 0, 0, 0, 0, 0, 1])),
    (53_248, bytes([0, 0, 0, 0, 0, 0, 0x13, 0x88, 0, 0, 0, 0, 0, 0, 0x10, 0])),
)

# The same in layout 6, with a key.
SIX = ((0, b"FAMSYNC6"), *FIVE[1:2], (24, bytes([1, 0x23, 0x45, 0x67, 0x89, 0xAB, 0xCD, 0xEF])), *FIVE[2:])

KEY = 0x0123456789ABCDEF

# Commit 1 has 65 in the first page of `a`, and 66 in `b`: its descriptor is in block 4, and its records follow. Commit
# 2 has the lengths 4,097 and 4,096, and 67 in the first page of `a`: its descriptor is in block 7.
FIRST = (
    (16_392, bytes([0, 0, 0, 0, 0, 0, 0, 1, 0, 0, 0, 2])),
    (16_416, bytes([0, 0, 0, 14, 0, 0, 0, 17])),
    (20_480, bytes([65])),
    (24_576, bytes([66])),
)
SECOND = (
    (28_680, bytes([0, 0, 0, 0, 0, 0, 0, 2, 0, 0, 0, 2])),
    (28_704, bytes([0, 0, 0, 13, 0, 0, 0, 14])),
    (32_768, bytes([0, 0, 0, 0, 0, 0, 0x10, 1, 0, 0, 0, 0, 0, 0, 0x10, 0])),
    (36_864, bytes([67])),
)

# Both commits of layout 5 are sealed.
SEALED = (*FIRST, *SECOND, (16_384, bytes([0xA7])), (28_672, bytes([0xA7])))

FRESH = """\
layout {}, log of 9 blocks, 18 blocks, 73728 bytes
file a: 5000 bytes, 3 pages, home 14, capacity 12288
file b: 4096 bytes, 1 pages, home 17
log: 0 commits in 0 blocks, epoch 1
"""

FRESH_AS_JSON = (
    '{{"blocks":18,"bytes":73728,"files":[{{"capacity":12288,"home":14,"length":5000,"name":"a","pages":3}},'
    '{{"capacity":4096,"home":17,"length":4096,"name":"b","pages":1}}],"layout":{},'
    '"log":{{"blocks":9,"commits":0,"epoch":1,"used":0}}}}\n'
)

WRITTEN = """\
layout {}, log of 9 blocks, 18 blocks, 73728 bytes
file a: 4097 bytes, 3 pages, home 14, capacity 12288
file b: 4096 bytes, 1 pages, home 17
log: 2 commits in 6 blocks, epoch 1
"""

# The last byte of `a`, which has 4,097 bytes after commit 2, is 68 in its home block. The byte behind it isn't in `a`.
HOME = ((61_440, bytes([68, 69])),)

NO_BYTES = "a 5000\nb 4096\n"

NO_BYTES_AS_JSON = '{"length":5000,"name":"a"}\n{"length":4096,"name":"b"}\n'

ONE_COMMIT = """\
a 5000
000000000000 41 00 00 00 00 00 00 00 00 00 00 00 00 00 00 00
b 4096
000000000000 42 00 00 00 00 00 00 00 00 00 00 00 00 00 00 00
"""

BOTH_COMMITS = """\
a 4097
000000000000 43 00 00 00 00 00 00 00 00 00 00 00 00 00 00 00
000000001000 44
b 4096
000000000000 42 00 00 00 00 00 00 00 00 00 00 00 00 00 00 00
"""

BOTH_AS_JSON = (
    '{"length":4097,"name":"a"}\n{"bytes":"43000000000000000000000000000000","offset":0}\n'
    '{"bytes":"44","offset":4096}\n'
    '{"length":4096,"name":"b"}\n{"bytes":"42000000000000000000000000000000","offset":0}\n'
)

SPOILT = "damaged: the super block is invalid"
SPOILT_LOG = "damaged: the log or the lengths block is invalid"

# What is changed in the image of the volume of layout 5, and the fault then.
SPOILT_IMAGES = [
    # No files, a log of 3 blocks, a block too many, another first block of the log, and a key.
    ([(11, 0)], SPOILT),
    ([(15, 3)], SPOILT),
    ([(19, 19)], SPOILT),
    ([(23, 5)], SPOILT),
    ([(31, 1)], SPOILT),
    ([(4095, 1)], SPOILT),
    # The length of `a` is above its capacity, and a byte after the lengths isn't zero.
    ([(53_254, 0x31)], SPOILT_LOG),
    ([(53_264, 1)], SPOILT_LOG),
    # The start has the number 0, the epoch 0, a position past the log, and a byte behind it. Start 1 counts, and is all
    # zeros.
    ([(8199, 0)], SPOILT_LOG),
    ([(8207, 0)], SPOILT_LOG),
    ([(8211, 9)], SPOILT_LOG),
    ([(8212, 1)], SPOILT_LOG),
    ([(4096, 0xA7)], SPOILT_LOG),
    # A seal over a descriptor of zeros.
    ([(16_384, 0xA7)], SPOILT_LOG),
]

# The words that make no volume with a log, and the fault of each.
BAD_WORDS = [
    ("format|--layout|5|none.img", "the following required arguments were not provided: <FILE>..."),
    ("format|--layout|5|none.img|4", 'FILE is "4"'),
    ("format|--layout|5|none.img|4|a=1", 'FILE is "4"'),
    ("format|--layout|5|none.img|a=1|b=5/", 'FILE is "b=5/"'),
    ("format|--layout|5|--log|4x|none.img|a=1", 'BLOCKS is "4x"'),
    ("format|--layout|5|--log=|none.img|a=1", 'BLOCKS is ""'),
    ("format|--layout|4|--log|4|none.img|4|a=1", "--log is only for layouts 5 and 6, but LAYOUT is 4"),
    ("format|--log|4|none.img|4|a=1", "--log is only for layouts 5 and 6, but LAYOUT is 1"),
    ("format|--layout|5|--key|0123456789abcdef|none.img|a=1", "--key is only for layout 6, but LAYOUT is 5"),
    ("format|--layout|3|--key|0123456789abcdef|none.img|4|a=1", "--key is only for layout 6, but LAYOUT is 3"),
    ("format|--layout|6|--key|0123456789abcde|none.img|a=1", 'KEY is "0123456789abcde"'),
    ("format|--layout|6|--key|0123456789abcdefa|none.img|a=1", 'KEY is "0123456789abcdefa"'),
    ("format|--layout|6|--key|+123456789abcdef|none.img|a=1", 'KEY is "+123456789abcdef"'),
    ("format|--layout|6|--key|0123456789abcdeg|none.img|a=1", 'KEY is "0123456789abcdeg"'),
]

# Volumes with a log that aren't made, and the fault of each.
REFUSALS = [
    ("format|--layout|5|--log|3|none.img|a=1", "BLOCKS is 3, but must be 4 to 16777216\n"),
    ("format|--layout|6|--log|16777217|none.img|a=1", "BLOCKS is 16777217, but must be 4 to 16777216\n"),
    ("format|--layout|5|none.img|a=0", 'the capacity of "a" is 0, but must be at least 1\n'),
    ("format|--layout|5|none.img|a=6/5", 'the length of "a" is 6, which exceeds its capacity 5\n'),
    ("format|--layout|5|none.img|a=1|a=2", 'two files have the name "a"\n'),
    ("format|--layout|5|none.img|a=18446744073709551615", "the volume would have more than 4294967295 blocks\n"),
]

NOT_SERVED = 'disk "log.img": notavolume: the volume is in layout 5 or 6, which this command doesn\'t accept\n'

NO_STEPS = '{{"cpus":1,"tlb":8,"frames":{},"copies":0,"steps":[]}}'

# Commands that don't serve these layouts.
OTHERS = ["migrate|log.img|new.img|4"]

# An opening of the volume writes start 1, in epoch 2, and the selector.
OPENED = ((12_288, bytes([0, 0, 0, 0, 0, 0, 0, 1, 0, 0, 0, 0, 0, 0, 0, 2])), (4096, bytes([0xA7])))

# Then a run commits 65 in the first page of `a`: the descriptor is in block 4, and its record in block 5.
RUN = (
    *OPENED,
    (16_392, bytes([0, 0, 0, 0, 0, 0, 0, 1, 0, 0, 0, 1])),
    (16_416, bytes([0, 0, 0, 14])),
    (20_480, bytes([65])),
)

# The next opening writes this page home, start 0 in epoch 3, behind the commit, and the selector. Then a run commits 66
# in the second page of `a`.
RUN_AGAIN = (
    *RUN,
    (57_344, bytes([65])),
    (8192, bytes([0, 0, 0, 0, 0, 0, 0, 2, 0, 0, 0, 0, 0, 0, 0, 3, 0, 0, 0, 2])),
    (4096, bytes([0])),
    (24_584, bytes([0, 0, 0, 0, 0, 0, 0, 2, 0, 0, 0, 1])),
    (24_608, bytes([0, 0, 0, 15])),
    (28_672, bytes([66])),
)

# A run sets the length of `a` to 9,000: a commit has the lengths and two pages.
RUN_THAT_GROWS = (
    *OPENED,
    (16_392, bytes([0, 0, 0, 0, 0, 0, 0, 1, 0, 0, 0, 3])),
    (16_416, bytes([0, 0, 0, 13, 0, 0, 0, 15, 0, 0, 0, 16])),
    (20_480, bytes([0, 0, 0, 0, 0, 0, 0x23, 0x28, 0, 0, 0, 0, 0, 0, 0x10, 0])),
)

# The replies to `BEGIN`, a store, and its commit.
BEGUN = "space 1\nmapped\nswitched\n"
STORED = "fixed\nstored\n"
COMMITTED = "begun\nmarked {0}\ngoing\ngoing\ngoing\ngoing\ncommitted {0}\ngoing\ngoing\ngoing\ndone {0}\n"

STORES_BEHIND = (
    ',[0,"fix",8192,"write"],[0,"store",8192,[66]],[0,"msync",8192,4096,4],[0,"change"]' + ',[0,"flush"]' * 9
)

RUN_DUMP = "a 5000\n000000000000 41 00 00 00 00 00 00 00 00 00 00 00 00 00 00 00\nb 4096\n"

# The last of several commits has 69.
LAST_DUMP = RUN_DUMP.replace(" 41 ", " 45 ")

AGAIN_DUMP = """\
a 5000
000000000000 41 00 00 00 00 00 00 00 00 00 00 00 00 00 00 00
000000001000 42 00 00 00 00 00 00 00 00 00 00 00 00 00 00 00
b 4096
"""

# The lines of a session that stores a byte, commits it and loads it, and the answers.
LINES = """\
{"cpus":1,"tlb":8,"frames":4,"copies":0}
[0,"create"]
[0,"map",1,4096,12288,0,0,"rw","rw"]
[0,"switch",1,"drop"]
[0,"stores",4096,"41"]
[0,"commit"]
[0,"loads",4096,1]
"""

ANSWERS = "ready 2\na 5000\nb 4096\nspace 1\nmapped\nswitched\nstored 1\ncommitted 1\nloaded 41\n"

PROGRAMS = (
    '{"cpus":1,"tlb":8,"frames":4,"copies":0,"trace":100,"steps":[[0,"create"],'
    '[0,"map",1,4096,12288,0,0,"rw","rw"],[0,"switch",1,"drop"]],'
    '"programs":[[["store",4096,[65]],["msync",4096,4096,4]]]}'
)

# The volume in layout 4 that shows a log of 9 blocks has 7 record slots.
TOO_MANY_FRAMES = (
    'disk "log.img": badshape: frames is 7, but must be 1 to 6: the volume has 6 record slots and one for the '
    "lengths\n"
)


def image_of_five(parts=(), changes=()):
    return made_of(73_728, (*FIVE, *parts), changes)


def image_of_six(parts=(), changes=()):
    return made_of(73_728, (*SIX, *parts), changes)


def sealed_by_digest(image, block, blocks, epoch=1):
    """The image, with the digest of this many blocks in front of them."""
    at, end = 4096 * block, 4096 * (block + blocks)
    digest = xxh64(image[at + 8 : end], KEY ^ epoch)
    return image[:at] + digest.to_bytes(8, "big") + image[at + 8 :]


def a_volume_has_a_log():
    """A volume of layout 5 is made, and looked at. With `--preallocate` it has the same bytes."""
    make = "format|--layout|5|--log|9|five.img|a=5000/12288|b=4096"
    yield from prints(make, 0, "formatted 18 blocks\n")
    yield from holds("five.img", image_of_five())
    yield from prints("info|five.img", 0, FRESH.format(5))
    yield from prints("info|--json|five.img", 0, FRESH_AS_JSON.format(5))
    yield from prints("check|five.img", 0, "clean\n")
    yield from prints("check|--json|five.img", 0, '{"state":"clean"}\n')
    make = "format|--replace|--preallocate|--json|--log=9|five.img|a=5000/12288|b=4096"
    yield from prints(make, 0, '{"blocks":18}\n')
    yield from holds("five.img", image_of_five())
    yield from leaves("five.img")


def a_key_is_given_or_drawn():
    """A volume of layout 6 is made. Without `--key` two volumes differ in their keys alone."""
    make = "format|--layout|6|--key|0123456789ABCdef|--log|9|six.img|a=5000/12288|b=4096"
    yield from prints(make, 0, "formatted 18 blocks\n")
    yield from holds("six.img", image_of_six())
    yield from prints("info|six.img", 0, FRESH.format(6))
    yield from prints("check|six.img", 0, "clean\n")
    for path in ("one.img", "two.img"):
        yield from prints(f"format|--layout|6|--log|9|{path}|a=5000/12288|b=4096", 0, "formatted 18 blocks\n")
    one, two = bytes_of("one.img"), bytes_of("two.img")
    yield from agree("two keys", False, one[24:32] == two[24:32])
    for image in (one, two):
        yield from agree("the rest", image_of_six(), image[:24] + image_of_six()[24:32] + image[32:])
    yield from leaves("six.img", "one.img", "two.img")


NOT_EMPTY = 'disk "old.img": the file isn\'t empty: use --replace to replace it\n'


def a_log_has_16384_blocks_by_default():
    """A file that isn't empty is replaced only with `--replace` or SLOTS, whatever its layout is. An empty one is."""
    write_bytes("old.img", b"")
    yield from prints("format|old.img|a=1", 0, "formatted 16390 blocks\n")
    yield from shows("info|old.img", "layout 5, log of 16384 blocks, 16390 blocks, 67133440 bytes\n")
    yield from prints("format|old.img|4|a=1", 0, "formatted 8 blocks\n")
    old = bytes_of("old.img")
    for words in ("format|old.img|a=1", "format|--layout|6|--preallocate|old.img|a=1"):
        yield from complains(words, 3, NOT_EMPTY)
        yield from holds("old.img", old)
    write_bytes("old.img", b"x")
    yield from complains("format|old.img|a=1", 3, NOT_EMPTY)
    yield from complains("format|old.img|a=0", 3, 'disk "old.img": badshape: the capacity of "a" is 0')
    yield from holds("old.img", b"x")
    yield from prints("format|--layout|6|--replace|old.img|a=1", 0, "formatted 16390 blocks\n")
    yield from prints("format|--layout|5|--replace|old.img|a=1", 0, "formatted 16390 blocks\n")
    yield from shows("info|old.img", "layout 5, log of 16384 blocks, 16390 blocks, 67133440 bytes\n")
    yield from prints("format|old.img|4|a=1", 0, "formatted 8 blocks\n")
    yield from shows("info|old.img", "layout 1, 4 slots, 8 blocks, 32768 bytes\n")
    yield from leaves("old.img")


def commits_in_the_log_are_seen():
    """Two commits: sealed by bytes, and by digests. With the second one's seal or record spoilt the log ends before
    it, or is damaged."""
    write_bytes("five.img", image_of_five(SEALED))
    yield from prints("info|five.img", 0, WRITTEN.format(5))
    yield from prints("check|five.img", 1, "needs opening\n")
    yield from holds("five.img", image_of_five(SEALED))
    change_file("five.img", [(28_672, 0)])
    yield from shows("info|five.img", "log: 1 commits in 3 blocks, epoch 1\n")
    change_file("five.img", [(28_672, 0xA7), (28_687, 3)])
    yield from prints("check|five.img", 3, f"{SPOILT_LOG}\n")

    image = sealed_by_digest(sealed_by_digest(image_of_six((*FIRST, *SECOND)), 4, 3), 7, 3)
    write_bytes("six.img", image)
    yield from prints("info|six.img", 0, WRITTEN.format(6))
    yield from prints("check|--json|six.img", 1, '{"state":"needs opening"}\n')
    write_bytes("six.img", changed(image, [(36_864, 68)]))
    yield from shows("info|six.img", "log: 1 commits in 3 blocks, epoch 1\n")
    yield from leaves("five.img", "six.img")


def files_of_a_log_are_printed():
    """The files of volumes with a log, as they recover: without a commit, and with two that aren't home."""
    sealed = sealed_by_digest(sealed_by_digest(image_of_six((*FIRST, *SECOND, *HOME)), 4, 3), 7, 3)
    for fresh, written in ((image_of_five(), image_of_five((*SEALED, *HOME))), (image_of_six(), sealed)):
        write_bytes("log.img", fresh)
        yield from prints("dump|log.img", 0, NO_BYTES)
        yield from prints("dump|--json|log.img", 0, NO_BYTES_AS_JSON)
        write_bytes("log.img", written)
        yield from prints("dump|log.img", 0, BOTH_COMMITS)
        yield from prints("dump|--json|log.img", 0, BOTH_AS_JSON)
        yield from holds("log.img", written)
    # Without its digest the second commit isn't there.
    write_bytes("log.img", changed(sealed, [(36_864, 68), (61_440, 0), (61_441, 0)]))
    yield from prints("dump|log.img", 0, ONE_COMMIT)
    yield from leaves("log.img")


def a_file_of_a_log_is_copied():
    """A copy has the recovered bytes of the file. There is none of a file that isn't there."""
    sealed = sealed_by_digest(sealed_by_digest(image_of_six((*FIRST, *SECOND, *HOME)), 4, 3), 7, 3)
    for fresh, written in ((image_of_five(), image_of_five((*SEALED, *HOME))), (image_of_six(), sealed)):
        write_bytes("log.img", fresh)
        yield from prints("export|log.img|a|a.copy", 0, "exported 5000 bytes\n")
        yield from holds("a.copy", bytes(5000))
        write_bytes("log.img", written)
        yield from prints("export|--json|log.img|a|a.copy", 0, '{"bytes":4097}\n')
        yield from holds("a.copy", changed(bytes(4097), [(0, 67), (4096, 68)]))
        yield from prints("export|log.img|b|b.copy", 0, "exported 4096 bytes\n")
        yield from holds("b.copy", changed(bytes(4096), [(0, 66)]))
        yield from complains("export|log.img|c|c.copy", 3, 'disk "log.img": it has no file "c"')
        yield from holds("log.img", written)
    yield from leaves("log.img", "a.copy", "b.copy")


def images_with_a_log_are_refused():
    """Images that no volume with a log has, the fault of each, and that none is written to."""
    for changes, cause in SPOILT_IMAGES:
        image = image_of_five((), changes)
        write_bytes("spoilt.img", image)
        yield from prints("check|spoilt.img", 3, f"{cause}\n")
        for line in ("info|spoilt.img", "dump|spoilt.img", "export|spoilt.img|a|a.copy"):
            yield from complains(line, 3, f'disk "spoilt.img": {cause}\n')
        yield from holds("spoilt.img", image)
    write_bytes("spoilt.img", image_of_five()[:69_632])
    cut = "damaged: the file has 69632 bytes, but its super block requires 73728"
    yield from prints("check|spoilt.img", 3, f"{cut}\n")
    yield from complains("dump|spoilt.img", 3, f'disk "spoilt.img": {cut}\n')
    yield from leaves("spoilt.img")


def words_are_refused():
    """Words that make no volume with a log. None makes a file."""
    for line, cause in BAD_WORDS:
        yield from complains(line, 2, cause)
    for line, cause in REFUSALS:
        yield from complains(line, 3, f'disk "none.img": badshape: {cause}')
    yield from leaves()


def sealed(image, commits):
    """The image of layout 6 with the digests of these commits: of each its block, its blocks and its epoch."""
    for block, blocks, epoch in commits:
        image = sealed_by_digest(image, block, blocks, epoch)
    return image


def both_after(parts, commits):
    """What a log that was `log.img` at first is to hold, in layout 5 and in layout 6."""
    seals = tuple((4096 * block, bytes([0xA7])) for block, _, _ in commits)
    yield image_of_five(), image_of_five((*parts, *seals))
    yield image_of_six(), sealed(image_of_six(parts), commits)


def a_script_runs_on_a_log():
    """A commit of a run is one to the log. A run without `msync` leaves its opening alone."""
    write("log.json", f"{BEGIN}{STORE}65{COMMIT}]}}")
    write("lost.json", f"{BEGIN}{STORE}65]]]}}")
    for fresh, after in both_after(OPENED, ()):
        write_bytes("log.img", fresh)
        yield from prints("run|log.img|lost.json", 0, BEGUN + STORED)
        yield from holds("log.img", after)
        yield from prints("dump|log.img", 0, NO_BYTES)
        yield from prints("check|log.img", 0, "clean\n")
    for fresh, after in both_after(RUN, ((4, 2, 2),)):
        write_bytes("log.img", fresh)
        yield from prints("run|log.img|log.json", 0, BEGUN + STORED + COMMITTED.format(1))
        yield from holds("log.img", after)
        yield from prints("dump|log.img", 0, RUN_DUMP)
        yield from shows("info|log.img", "log: 1 commits in 2 blocks, epoch 2\n")
        yield from prints("check|log.img", 1, "needs opening\n")
        yield from prints("export|log.img|a|a.copy", 0, "exported 5000 bytes\n")
        yield from holds("a.copy", changed(bytes(5000), [(0, 65)]))
    yield from leaves("log.img", "log.json", "lost.json", "a.copy")


def a_run_goes_on_from_the_one_before():
    """The second run opens the volume that the first one left, and commits behind its commit."""
    write("log.json", f"{BEGIN}{STORE}65{COMMIT}]}}")
    write("again.json", f"{BEGIN}{STORES_BEHIND}]}}")
    for fresh, after in both_after(RUN_AGAIN, ((4, 2, 2), (6, 2, 3))):
        write_bytes("log.img", fresh)
        yield from prints("run|log.img|log.json", 0, BEGUN + STORED + COMMITTED.format(1))
        yield from prints("run|log.img|again.json", 0, BEGUN + STORED + COMMITTED.format(1))
        yield from holds("log.img", after)
        yield from prints("dump|log.img", 0, AGAIN_DUMP)
        yield from shows("info|log.img", "log: 1 commits in 2 blocks, epoch 3\n")
    yield from leaves("log.img", "log.json", "again.json")


def a_file_of_a_log_grows():
    """A new length is a record of the commit, with the pages at the old end."""
    write("grows.json", BEGIN + GROWS)
    for fresh, after in both_after(RUN_THAT_GROWS, ((4, 4, 2),)):
        write_bytes("log.img", fresh)
        yield from prints("run|log.img|grows.json", 0, GROWN)
        yield from holds("log.img", after)
        yield from prints("dump|log.img", 0, "a 9000\nb 4096\n")
    yield from leaves("log.img", "grows.json")


def commits_make_room_in_a_log():
    """Commits that don't all fit into the log: five in a log of 9 blocks, and in one of 4."""
    commits = "".join(f"{STORE}{byte}{COMMIT}" for byte in STORED_BYTES)
    write("log.json", f'{BEGIN}{commits},[0,"flush"]]}}')
    write("small.json", f'{BEGIN}{commits},[0,"flush"]]}}'.replace('"frames":3', '"frames":1'))
    for image in (image_of_five(), image_of_six()):
        write_bytes("log.img", image)
        yield from prints("run|log.img|log.json", 0, REPLIES)
        yield from prints("dump|log.img", 0, LAST_DUMP)
    for layout in (5, 6):
        make = f"format|--replace|--layout|{layout}|--log|4|log.img|a=5000/12288|b=4096"
        yield from prints(make, 0, "formatted 13 blocks\n")
        yield from prints("run|log.img|small.json", 0, REPLIES)
        yield from prints("dump|log.img", 0, LAST_DUMP)
        yield from prints("run|log.img|small.json", 0, REPLIES)
        yield from prints("dump|log.img", 0, LAST_DUMP)
    yield from leaves("log.img", "log.json", "small.json")


def a_session_is_served_on_a_log():
    for fresh, after in both_after(RUN, ((4, 2, 2),)):
        write_bytes("log.img", fresh)
        yield from ended_so("serve|log.img", served("serve|log.img", LINES), 0, ANSWERS)
        yield from holds("log.img", after)
        yield from prints("dump|log.img", 0, RUN_DUMP)
    yield from leaves("log.img")


def programs_run_on_a_log():
    """Programs commit in threads, and their trace is the same on the volume from before, which it leaves as it is."""
    write("threads.json", PROGRAMS)
    for fresh, after in both_after(RUN, ((4, 2, 2),)):
        write_bytes("log.img", fresh)
        ran = run("threads|log.img|threads.json")
        yield from agree("threads", (0, ""), (ran.status, ran.err))
        yield from holds("log.img", after)
        yield from prints("dump|log.img", 0, RUN_DUMP)
        write("log.trace", ran.out)
        write_bytes("log.img", fresh)
        yield from prints("replay|log.img|log.trace", 0, f"same {len(ran.out.splitlines()) - 1}\n")
        yield from holds("log.img", fresh)
    yield from leaves("log.img", "threads.json", "log.trace")


def a_machine_fits_the_log():
    """A machine over a log of 9 blocks has up to 6 frames. One that has more is refused once the volume is opened.
    A run opens it again, to say why."""
    write("fits.json", NO_STEPS.format(6))
    write("log.json", NO_STEPS.format(7))
    write("threads.json", PROGRAMS.replace('"frames":4', '"frames":7'))
    line = "serve|log.img"
    for fresh, after in both_after(OPENED, ()):
        write_bytes("log.img", fresh)
        yield from complains("crashes|log.img|log.json", 3, TOO_MANY_FRAMES)
        yield from holds("log.img", fresh)
        yield from complained(line, served(line, '{"cpus":1,"tlb":8,"frames":7,"copies":0}\n'), 3, TOO_MANY_FRAMES)
        yield from holds("log.img", after)
        yield from shows("info|log.img", "log: 0 commits in 0 blocks, epoch 2\n")
        yield from complains("threads|log.img|threads.json", 3, TOO_MANY_FRAMES)
        yield from shows("info|log.img", "log: 0 commits in 0 blocks, epoch 3\n")
        yield from complains("run|log.img|log.json", 3, TOO_MANY_FRAMES)
        yield from shows("info|log.img", "log: 0 commits in 0 blocks, epoch 5\n")
        yield from prints("run|log.img|fits.json", 0)
        yield from prints("dump|log.img", 0, NO_BYTES)
    yield from leaves("log.img", "log.json", "fits.json", "threads.json")


def runs_on_a_spoilt_log_are_refused():
    """Nothing is written to an image that no volume with a log has."""
    write("log.json", NO_STEPS.format(4))
    write("log.trace", '{"copies":0,"cpus":1,"frames":4,"tlb":8,"trace":9}\n')
    write("threads.json", PROGRAMS)
    for changes, cause in SPOILT_IMAGES:
        image = image_of_five((), changes)
        write_bytes("spoilt.img", image)
        for line in (
            "run|spoilt.img|log.json", "crashes|spoilt.img|log.json", "replay|spoilt.img|log.trace",
            "threads|spoilt.img|threads.json",
        ):
            yield from complains(line, 3, f'disk "spoilt.img": {cause}\n')
        ran = served("serve|spoilt.img", '{"cpus":1,"tlb":8,"frames":4,"copies":0}\n')
        yield from complained("serve|spoilt.img", ran, 3, f'disk "spoilt.img": {cause}\n')
        yield from holds("spoilt.img", image)
    yield from leaves("spoilt.img", "log.json", "log.trace", "threads.json")


def other_commands_refuse_a_log():
    """The commands that don't serve these layouts say so, and leave the file as it is."""
    write("log.json", NO_STEPS.format(4))
    for image in (image_of_five(SEALED), image_of_six()):
        write_bytes("log.img", image)
        for line in OTHERS:
            yield from complains(line, 3, NOT_SERVED)
        yield from holds("log.img", image)
    yield from leaves("log.img", "log.json")


def served(line, lines):
    """A run with these lines as its input."""
    ran = subprocess.run([PROGRAM, *words_of(line)], input=lines, capture_output=True, text=True, timeout=120)
    return Outcome(ran.returncode, ran.stdout, ran.stderr)


GROUPS = [
    a_volume_has_a_log,
    a_key_is_given_or_drawn,
    a_log_has_16384_blocks_by_default,
    commits_in_the_log_are_seen,
    files_of_a_log_are_printed,
    a_file_of_a_log_is_copied,
    images_with_a_log_are_refused,
    words_are_refused,
    a_script_runs_on_a_log,
    a_run_goes_on_from_the_one_before,
    a_file_of_a_log_grows,
    commits_make_room_in_a_log,
    a_session_is_served_on_a_log,
    programs_run_on_a_log,
    a_machine_fits_the_log,
    runs_on_a_spoilt_log_are_refused,
    other_commands_refuse_a_log,
]
