"""The bytes of volumes, as docs/FORMATS.md has them, and the script that commits a byte in one."""

from cases.trial import prints, write_bytes

# What isn't zero in a volume of layout 1 of the files `a` of 5,000 bytes and `b` of 4,096, with 4 record slots.
ONE = (
    (0, b"FAMSYNC1"),
    (8, bytes([0, 0, 0, 2, 0, 0, 0, 4, 0, 0, 0, 10])),
    (32, b"a"),
    (64, bytes([0, 0, 0, 0, 0, 0, 0x13, 0x88, 0, 0, 0, 7, 0, 0, 0, 2])),
    (80, b"b"),
    (112, bytes([0, 0, 0, 0, 0, 0, 0x10, 0, 0, 0, 0, 9, 0, 0, 0, 1])),
)

# The same in layout 2.
TWO = (
    (0, b"FAMSYNC2"),
    (8, bytes([0, 0, 0, 2, 0, 0, 0, 4, 0, 0, 0, 16])),
    (32, b"a"),
    (64, bytes([0, 0, 0, 0, 0, 0, 0x13, 0x88, 0, 0, 0, 13, 0, 0, 0, 2])),
    (80, b"b"),
    (112, bytes([0, 0, 0, 0, 0, 0, 0x10, 0, 0, 0, 0, 15, 0, 0, 0, 1])),
)

# The same in layout 4, where `a` may grow to 12,288 bytes. It has 30 blocks. The journals begin in blocks 1, 7, 13 and
# 19, each with its gate, one block of its descriptor, and its records. The lengths are in block 25, `a` is in blocks 26
# to 28, and `b` in block 29.
FOUR = (
    (0, b"FAMSYNC4"),
    (8, bytes([0, 0, 0, 2, 0, 0, 0, 4, 0, 0, 0, 30])),
    (32, b"a"),
    (64, bytes([0, 0, 0, 0, 0, 0, 0x30, 0, 0, 0, 0, 26, 0, 0, 0, 3])),
    (80, b"b"),
    (112, bytes([0, 0, 0, 0, 0, 0, 0x10, 0, 0, 0, 0, 29, 0, 0, 0, 1])),
    (102_400, bytes([0, 0, 0, 0, 0, 0, 0x13, 0x88, 0, 0, 0, 0, 0, 0, 0x10, 0])),
)


def changed(image, changes):
    """The same bytes, but for those at these offsets."""
    image = bytearray(image)
    for at, byte in changes:
        image[at] = byte
    return bytes(image)


def made_of(length, parts, changes):
    """So many bytes, of these parts and of zeros, with these bytes at these offsets changed."""
    image = bytearray(length)
    for at, part in parts:
        image[at : at + len(part)] = part
    return changed(image, changes)


def image_of_one(changes=()):
    return made_of(40_960, ONE, changes)


def image_of_two(changes=()):
    return made_of(65_536, TWO, changes)


def image_of_four(changes=()):
    return made_of(122_880, FOUR, changes)


# The key of the digests in layout 6.
KEY = "0123456789abcdef"


def pages_of(length):
    return (length + 4095) // 4096


def image_with_log(layout, files, ring=9):
    """A volume with a log of these blocks that has no commit, with these files: the name, the capacity and the bytes of
    each. In layout 6 its key is KEY."""
    home = 5 + ring
    blocks = home + sum(pages_of(capacity) for _, capacity, _ in files)
    key = bytes.fromhex(KEY) if layout == 6 else bytes(8)
    head = b"FAMSYNC%d" % layout + b"".join(n.to_bytes(4, "big") for n in (len(files), ring, blocks, 4)) + key
    parts = [(0, head), (8192, (1).to_bytes(8, "big") + (1).to_bytes(8, "big"))]
    for i, (name, capacity, content) in enumerate(files):
        pages = pages_of(capacity)
        # The table counts home blocks from 4, as it does in layout 1 with one slot.
        numbers = capacity.to_bytes(8, "big") + (home - 1 - ring).to_bytes(4, "big") + pages.to_bytes(4, "big")
        parts += [(32 + 48 * i, name.ljust(32, b"\0") + numbers)]
        parts += [(4096 * (4 + ring) + 8 * i, len(content).to_bytes(8, "big")), (4096 * home, content)]
        home += pages
    return made_of(4096 * blocks, parts, ())


def makes_volume(path):
    """A volume of layout 1 with these files is made."""
    return prints(f"format|{path}|4|a=5000|b=4096", 0, "formatted 10 blocks\n")


def change_file(path, changes):
    with open(path, "rb") as file:
        image = file.read()
    write_bytes(path, changed(image, changes))


# A byte is stored in the first page of `a`, committed and written home.
FIRST_SCRIPT = (
    '{"cpus":1,"tlb":8,"frames":4,"copies":0,"steps":[[0,"create"],[0,"map",1,4096,12288,0,0,"rw","rw"],'
    '[0,"switch",1,"drop"],[0,"store",4096,[65]],[0,"fix",4096,"write"],[0,"store",4096,[65]],'
    '[0,"msync",4096,4096,4],[0,"change"],[0,"flush"],[0,"flush"],[0,"flush"],[0,"flush"],[0,"flush"],'
    '[0,"flush"],[0,"flush"],[0,"flush"],[0,"flush"]]}'
)

FIRST_REPLIES = (
    "space 1\nmapped\nswitched\nfault 6\nfixed\nstored\nbegun\nmarked 1\n"
    "going\ngoing\ngoing\ngoing\ncommitted 1\ngoing\ngoing\ngoing\ndone 1\n"
)

FIRST_DUMP = "a 5000\n000000000000 41 00 00 00 00 00 00 00 00 00 00 00 00 00 00 00\nb 4096\n"

# What differs then from the image of the volume: once the byte is committed, with the gate open and the home block as
# before; and at the end, where the gate is closed again, and the descriptor, the record in block 3 and the home in
# block 7 are there.
COMMITTED = ((4096, 0xA7), (8199, 1), (8203, 1), (8211, 7), (12_288, 65))
WRITTEN_HOME = ((8199, 1), (8203, 1), (8211, 7), (12_288, 65), (28_672, 65))
