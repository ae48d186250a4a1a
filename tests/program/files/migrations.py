"""Volumes of one layout that are made from another's."""

import json
import os

from files.program import (
    MIGRATE, NEWER, OLD, OTHER, PROGRAM, bytes_of, calls_of, clear, complains, dumped, famsync, has,
    makes_whole_or_nothing, migrating, refuses_its_own_volume, volume,
)
from cases.images import image_with_log
from lib.processes import begun_session, want


def migrations():
    # Two files of two pages and of one, and two journals of 1,020 records: 6 + 2 * 1020 + 3 blocks.
    volume()
    made = famsync("migrate", "v.img", "w.img", "1020")
    want((made.status, made.out) == (0, "migrated 2049 blocks\n"), "a volume is migrated", made)
    want(os.path.getsize("w.img") == 2049 * 4096, "at its exact size")
    want(bytes_of("w.img")[:8] == b"FAMSYNC3", "in layout 3")
    want(dumped("w.img") == OLD and dumped("v.img") == OLD, "both have the files")
    made = famsync("migrate", "--json", "v.img", "w.img", "2")
    want((made.status, json.loads(made.out)) == (0, {"blocks": 13}), "as JSON, over another", made)
    # Volumes of each layout, cut off at each call of a second commit, so that gates are open.
    for layout in "1234":
        clear()
        made = famsync("format", "--layout", layout, "v.img", "5", "a=5000", "b=4096")
        want(made.status == 0, "a volume is made", layout)
        want(famsync("run", "v.img", "old.json").status == 0, "and written to", layout)
        image, found = bytes_of("v.img"), set()
        for call in range(1, calls_of(["run", "v.img", "newer.json"]) + 1):
            with open("v.img", "wb") as file:
                file.write(image)
            famsync("run", "v.img", "newer.json", fault=f"kill:{call}")
            before = dumped("v.img")
            want(famsync(*migrating(layout)).status == 0, "it is migrated", layout, call)
            want(dumped("w.img") == before == dumped("v.img"), "the files go over", layout, call)
            found.add(before)
        want(found == {OLD, NEWER}, "old files and newer ones", layout, found)
    # Lengths below capacities, and of 0, go over, and bytes past a length don't.
    clear()
    want(famsync("format", "--layout", "3", "v.img", "3", "a=0/5000", "b=5/9000").status == 0, "files that may grow")
    want(famsync(*MIGRATE).status == 0 and dumped("w.img") == dumped("v.img") == "a 0\nb 5\n", "their lengths go over")
    # Each call killed or failing: NEW is what it was, or whole, and OLD has its files.
    for other in (None, OTHER):

        def prepare():
            volume()
            if other is not None:
                want(famsync("format", "w.img", "2", "c=100").status == 0, "another volume is there")

        def found():
            return dumped("w.img") if os.path.exists("w.img") else None

        makes_whole_or_nothing(MIGRATE, "w.img", prepare, found, OLD, lambda over: has(OLD))
    # So is one with a log.
    files = [(b"a", 5000, bytes([65]) + bytes(4999)), (b"b", 4096, bytes(4096))]
    logged = ["migrate", "--layout", "5", "--log", "4", "v.img", "w.img"]

    def bytes_there():
        return bytes_of("w.img") if os.path.exists("w.img") else None

    makes_whole_or_nothing(logged, "w.img", volume, bytes_there, image_with_log(5, files, 4), lambda over: has(OLD))
    # Not to the same file, by whatever name; not in a bad shape; not while one of the two is in use.
    volume()
    image = bytes_of("v.img")
    refuses_its_own_volume(lambda old, new: ["migrate", old, new, "2"])
    for slots in ("0", "1", "1021", str(2**64 - 1)):
        complains(famsync("migrate", "v.img", "w.img", slots), "badshape: SLOTS is", "must be 2 to 1020")
    complains(famsync("migrate", "v.img", "w.img", "two"), "SLOTS is", status=2)
    want(not os.path.exists("w.img") and not os.path.exists("w.img.new"), "no file is made")
    want(bytes_of("v.img") == image, "the volume isn't touched")
    want(famsync("format", "w.img", "2", "c=100").status == 0, "another volume is there")
    for used in ("v.img", "w.img"):
        session = begun_session(PROGRAM, used)
        complains(famsync(*MIGRATE), f'disk "{used}": in use by another process')
        session.end()
    want(dumped("w.img") == OTHER and bytes_of("v.img") == image, "nothing is touched")
