"""What `info`, `check`, `dump` and `export` print and copy of a volume."""

from files.program import write
from cases.images import (
    COMMITTED, FIRST_DUMP, FIRST_REPLIES, FIRST_SCRIPT, changed, image_of_one, makes_volume,
)
from cases.trial import complains, holds, leaves, prints, write_bytes

CLEAN = """\
layout 1, 4 slots, 10 blocks, 40960 bytes
file a: 5000 bytes, 2 pages, home 7
file b: 4096 bytes, 1 pages, home 9
journal 0: gate 00 closed
opening makes 3 device calls
"""

CLEAN_AS_JSON = (
    '{"blocks":10,"bytes":40960,"files":[{"capacity":5000,"home":7,"length":5000,"name":"a","pages":2},'
    '{"capacity":4096,"home":9,"length":4096,"name":"b","pages":1}],'
    '"journals":[{"gate":0,"number":0,"open":false}],"layout":1,"opening_calls":3,"slots":4}\n'
)

OPEN = """\
layout 1, 4 slots, 10 blocks, 40960 bytes
file a: 5000 bytes, 2 pages, home 7
file b: 4096 bytes, 1 pages, home 9
journal 0: gate a7 open, mark 1, 1 blocks: a:0
opening makes 9 device calls
"""

OPEN_AS_JSON = (
    '{"length":5000,"name":"a"}\n{"bytes":"41000000000000000000000000000000","offset":0}\n{"length":4096,"name":"b"}\n'
)

NO_VOLUME_AS_JSON = (
    '{"fault":"disk \\"hurt.img\\": notavolume: the file doesn\'t begin with FAMSYNC1, FAMSYNC2, FAMSYNC3, FAMSYNC4, '
    'FAMSYNC5 or FAMSYNC6","status":3}\n'
)

NO_VOLUME = (
    'disk "hurt.img": notavolume: the file doesn\'t begin with FAMSYNC1, FAMSYNC2, FAMSYNC3, FAMSYNC4, FAMSYNC5 or '
    "FAMSYNC6\n"
)

DAMAGED = "damaged: the super block is invalid"


def a_clean_volume_is_looked_at():
    """A volume whose gates are closed."""
    yield from makes_volume("clean.img")
    yield from prints("info|clean.img", 0, CLEAN)
    yield from prints("check|clean.img", 0, "clean\n")
    yield from prints("check|--json|clean.img", 0, '{"state":"clean"}\n')
    yield from prints("info|--json|clean.img", 0, CLEAN_AS_JSON)
    yield from prints("export|clean.img|b|b.copy", 0, "exported 4096 bytes\n")
    yield from holds("b.copy", bytes(4096))
    yield from complains("export|clean.img|c|b.copy", 3, 'disk "clean.img": it has no file "c"')
    yield from complains("export|clean.img|a|clean.img", 3, "file \"clean.img\": it is the volume's file")
    yield from prints("format|--json|clean.img|4|a=5000|b=4096", 0, '{"blocks":10}\n')
    yield from leaves("clean.img", "b.copy")


def an_open_volume_is_looked_at():
    """A volume with an open journal, whose record is for the first page of `a`, and begins with 65."""
    write_bytes("open.img", image_of_one(COMMITTED))
    yield from prints("info|open.img", 0, OPEN)
    yield from prints("check|open.img", 1, "needs opening\n")
    yield from prints("dump|--json|open.img", 0, OPEN_AS_JSON)
    yield from prints("export|--json|open.img|a|a.copy", 0, '{"bytes":5000}\n')
    yield from holds("a.copy", changed(bytes(5000), [(0, 65)]))
    yield from holds("open.img", image_of_one(COMMITTED))
    yield from leaves("open.img", "a.copy")


def a_damaged_volume_is_reported():
    """A damaged volume, and none."""
    write_bytes("hurt.img", image_of_one([(4095, 1)]))
    yield from prints("check|hurt.img", 3, f"{DAMAGED}\n")
    for line in ("info|hurt.img", "dump|hurt.img", "export|hurt.img|a|a.copy"):
        yield from complains(line, 3, f'disk "hurt.img": {DAMAGED}\n')
    write_bytes("hurt.img", image_of_one([(0, 0)]))
    yield from complains("check|hurt.img", 3, 'disk "hurt.img": notavolume: ')
    for line in ("info|hurt.img", "dump|hurt.img", "export|hurt.img|a|a.copy"):
        yield from complains(line, 3, NO_VOLUME)
    for line in ("check|--json|hurt.img", "dump|--json|hurt.img"):
        yield from prints(line, 3, "", NO_VOLUME_AS_JSON)
    yield from leaves("hurt.img")


def a_volume_is_migrated():
    """A volume with a byte that was committed is migrated to one in layout 3, which has the same files."""
    yield from makes_volume("old.img")
    write("byte.json", FIRST_SCRIPT)
    yield from prints("run|old.img|byte.json", 0, FIRST_REPLIES)
    yield from prints("migrate|old.img|new.img|1020", 0, "migrated 2049 blocks\n")
    yield from prints("dump|new.img", 0, FIRST_DUMP)
    yield from prints("dump|old.img", 0, FIRST_DUMP)
    yield from complains("migrate|old.img|old.img|4", 3, "file \"old.img\": it is the volume's file")
    cause = 'disk "other.img": badshape: SLOTS is 1, but must be 2 to 1020'
    yield from complains("migrate|old.img|other.img|1", 3, cause)
    yield from leaves("byte.json", "old.img", "new.img")


GROUPS = [a_clean_volume_is_looked_at, an_open_volume_is_looked_at, a_damaged_volume_is_reported, a_volume_is_migrated]
