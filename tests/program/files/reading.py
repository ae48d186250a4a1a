"""What `info`, `check`, `dump` and `export` print, compared with the volume's bytes."""

import errno
import itertools
import json
import os
import signal
import struct

from files.lengths import lengths
from files.program import (
    EXPORT, PROGRAM, bytes_of, calls_of, clear, complains, dump_of, ended, famsync, has, makes_whole_or_nothing,
    refuses_its_own_volume, stopped, volume, write,
)
from lib.processes import begun_session, want
from lib.serve_model import descriptor_blocks, has_lengths, journals_of


def info_of(image):
    """What a volume says, read from its bytes."""
    layout = int(image.removeprefix(b"FAMSYNC")[:1])
    count, slots, blocks = struct.unpack_from(">III", image, 8)
    journals, described = journals_of(layout), descriptor_blocks(slots)
    said = {"layout": layout, "slots": slots, "blocks": blocks, "bytes": 4096 * blocks, "files": [], "journals": []}
    places = {}
    for i in range(count):
        name = image[32 + 48 * i : 64 + 48 * i].rstrip(b"\0").decode()
        capacity, home, pages = struct.unpack_from(">QII", image, 64 + 48 * i)
        said["files"].append({"name": name, "length": capacity, "capacity": capacity, "pages": pages, "home": home})
        places.update({home + page: {"file": name, "page": page} for page in range(pages)})
    # the super block, a sync, each gate and the lengths
    said["opening_calls"] = 2 + journals + has_lengths(layout)
    # which block has the lengths, after which mark
    lengths = [(0, 1 + journals * (1 + described + slots))] if has_lengths(layout) else []
    for number in range(journals):
        at = 4096 * (1 + number * (1 + described + slots))
        journal = {"number": number, "gate": image[at], "open": image[at] == 0xA7}
        if journal["open"]:
            mark, records = struct.unpack_from(">QI", image, at + 4096)
            homes = struct.unpack_from(f">{records}I", image, at + 4096 + 16)
            journal.update(mark=mark, blocks=[places.get(home, {"block": home}) for home in homes])
            slot = at // 4096 + 1 + described
            lengths += [(mark, slot + i) for i, home in enumerate(homes) if home not in places]
            said["opening_calls"] += 2 * records + 4
        said["journals"].append(journal)
    for _, block in sorted(lengths)[-1:]:
        for i, file in enumerate(said["files"]):
            file["length"] = struct.unpack_from(">Q", image, 4096 * block + 8 * i)[0]
    return said


def info_lines(said):
    yield f"layout {said['layout']}, {said['slots']} slots, {said['blocks']} blocks, {said['bytes']} bytes"
    for file in said["files"]:
        capacity = "" if file["capacity"] == file["length"] else f", capacity {file['capacity']}"
        yield f"file {file['name']}: {file['length']} bytes, {file['pages']} pages, home {file['home']}{capacity}"
    for journal in said["journals"]:
        line = f"journal {journal['number']}: gate {journal['gate']:02x}"
        if journal["open"]:
            words = {1: " block {block}", 2: " {file}:{page}"}
            pages = "".join(words[len(block)].format(**block) for block in journal["blocks"])
            yield f"{line} open, mark {journal['mark']}, {len(journal['blocks'])} blocks:{pages}"
        else:
            yield f"{line} closed"
    yield f"opening makes {said['opening_calls']} device calls"


def files_in(text):
    """The names and bytes of the files that lines of JSON say."""
    files = {}
    for line in map(json.loads, text.splitlines()):
        if "name" in line:
            here = files[line["name"]] = bytearray(line["length"])
        else:
            part = bytes.fromhex(line["bytes"])
            here[line["offset"] : line["offset"] + len(part)] = part
    return files


def looked_at(path):
    """The commands that only read agree on a volume, and leave it as it is."""
    image = bytes_of(path)
    said = info_of(image)
    opened = any(journal["open"] for journal in said["journals"])
    text, data = famsync("info", path), famsync("info", "--json", path)
    wanted = "".join(f"{line}\n" for line in info_lines(said))
    want((text.status, text.out, text.err) == (0, wanted, ""), "info", text, said)
    want((data.status, data.err) == (0, "") and json.loads(data.out) == said, "info as JSON", data, said)
    state = "needs opening" if opened else "clean"
    checked = famsync("check", path)
    want((checked.status, checked.out, checked.err) == (int(opened), f"{state}\n", ""), "check", checked)
    checked = famsync("check", "--json", path)
    want((checked.status, json.loads(checked.out)) == (int(opened), {"state": state}), "check as JSON", checked)
    lines = famsync("dump", "--json", path)
    want((lines.status, lines.err) == (0, ""), "dump as JSON", lines)
    files = files_in(lines.out)
    want([file["name"] for file in said["files"]] == list(files), "its files", files)
    for name, wanted in files.items():
        copied = famsync("export", path, name, "a.copy")
        want((copied.status, copied.out) == (0, f"exported {len(wanted)} bytes\n"), "export", copied)
        want(bytes_of("a.copy") == wanted, "the bytes of the file", name)
    want(bytes_of(path) == image, "the volume isn't touched")
    return files


def refused_by(command, by_run):
    """What a command says of a file that a run refuses. Four commands also know volumes with a log."""
    if command not in ("info", "check", "dump", "export"):
        return by_run.err
    return by_run.err.replace("FAMSYNC3 or FAMSYNC4", "FAMSYNC3, FAMSYNC4, FAMSYNC5 or FAMSYNC6")


def looks():
    """Volumes after each call of a run: what is printed about them, and that nothing is written to them."""
    shapes = [("1", "4", "5000"), ("2", "4", "5000"), ("3", "5", "5000/12288"), ("4", "5", "5000/12288")]
    shapes.append(("4", "1021", "5000/12288"))  # descriptors of two blocks
    for layout, slots, length in shapes:
        words = ["run", "v.img", "newer.json"]
        states = set()
        for call in itertools.count(1):
            clear()
            famsync("format", "--layout", layout, "v.img", slots, f"a={length}", "b=4096")
            want(famsync("run", "v.img", "old.json").status == 0, "a volume is made", layout)
            killed = famsync(*words, fault=f"kill:{call}")
            files = looked_at("v.img")
            want(files["a"][0] in (65, 66) and not any(files["b"]), "old or new", files["a"][0])
            states.add((famsync("check", "v.img").out, files["a"][0]))
            has(dump_of(files["a"][0]))
            if killed.status == 0:
                break
        want({("clean\n", 65), ("needs opening\n", 66), ("clean\n", 66)} <= states, "all states were seen", states)
    # Nothing but the sync as the file is opened, and the file is open for reading alone.
    for name in ("info", "check", "dump"):
        want(calls_of([name, "v.img"]) == 1 and calls_of([name, "v.img"], "sync") == 1, "one sync", name)
    for words in (["info", "v.img"], ["check", "v.img"], EXPORT):
        process = stopped(words, 1)
        found = []
        for descriptor in os.listdir(f"/proc/{process.pid}/fd"):
            if os.path.basename(os.readlink(f"/proc/{process.pid}/fd/{descriptor}")) == "v.img":
                with open(f"/proc/{process.pid}/fdinfo/{descriptor}") as file:
                    lines = dict(line.split(":", 1) for line in file)
                is_read_only = int(lines["flags"], 8) & os.O_ACCMODE == os.O_RDONLY
                found.append(is_read_only and " READ " in lines.get("lock", " READ "))
        want(found == [True], "open for reading alone, and locked so", words, found)
        os.kill(process.pid, signal.SIGCONT)
        want(ended(process).status == 0, "it goes on", words)
    # What isn't a volume, and what is damaged.
    volume()
    image = bytes_of("v.img")
    opened = {4096: 0xA7, 8200: 0xFF}  # the gate is open, and the descriptor says that there are too many records
    for changes, cause in (({0: 0x47}, "notavolume"), ({4095: 1}, "damaged"), (opened, "damaged"), ({40959: 1}, None)):
        with open("v.img", "wb") as file:
            file.write(bytes(changes.get(at, byte) for at, byte in enumerate(image)))
        if cause is None:
            looked_at("v.img")
            continue
        by_run = famsync("run", "v.img", "newer.json")
        complains(by_run, cause)
        for words in (["info", "v.img"], EXPORT):
            text = refused_by(words[0], by_run)
            want(famsync(*words).err == text, "refused as a run refuses it", words)
            fault = famsync(words[0], "--json", *words[1:])
            said = {"status": 3, "fault": text[len("famsync: ") : -1]}
            want((fault.status, fault.out) == (3, "") and json.loads(fault.err) == said, "the fault as JSON", fault)
        checked, data = famsync("check", "v.img"), famsync("check", "--json", "v.img")
        if cause == "damaged":
            text = by_run.err.split(": ", 2)[2]
            want((checked.status, checked.out, checked.err) == (3, text, ""), "check reports it", checked, text)
            said = {"state": "damaged", "cause": text[len("damaged: ") : -1]}
            want((data.status, json.loads(data.out), data.err) == (3, said, ""), "and as JSON", data)
        else:
            want(checked.err == refused_by("check", by_run) and not checked.out, "check is refused", checked)
    # A mark is reported, and --trust looks all the same.
    volume()
    write("v.img.suspect", "")
    for words in (["info", "v.img"], ["check", "v.img"], EXPORT):
        complains(famsync(*words), '"v.img.suspect" exists because a sync failed', "--trust")
        want(famsync(words[0], "--trust", *words[1:]).status == 0, "it is trusted", words)
        want(os.path.exists("v.img.suspect"), "and is still marked")
    # Where the sync fails it is marked.
    for words in (["info", "v.img"], ["check", "v.img"], EXPORT):
        volume()
        complains(famsync(*words, fault=f"fail:1:{errno.EIO}"), "can't be synced", '"v.img.suspect" marks it')
    # Bad words.
    volume()
    with_json = ["run", "--json", "v.img", "newer.json"]
    for words in (["info"], ["check", "v.img", "x"], ["export", "v.img", "a"], with_json):
        bad = famsync(*words)
        want(bad.status == 2 and not bad.out, "a bad command line", words, bad)
        if "--json" in words:
            want(json.loads(bad.err)["status"] == 2, "reported as JSON", bad)
    made = famsync("format", "--json", "v.img", "4", "a=5000", "b=4096")
    want((made.status, json.loads(made.out)) == (0, {"blocks": 10}), "format as JSON", made)
    copied = famsync("export", "--json", "v.img", "a", "a.copy")
    want((copied.status, json.loads(copied.out)) == (0, {"bytes": 5000}), "export as JSON", copied)


def exports():
    wanted = b"\x41" + bytes(4999)
    for before in (None, b"old"):

        def prepare():
            volume()
            if before is not None:
                with open("a.copy", "wb") as file:
                    file.write(before)
                os.chmod("a.copy", 0o640)

        def found():
            return bytes_of("a.copy") if os.path.exists("a.copy") else None

        prepare()
        image = bytes_of("v.img")

        def judge(over):
            want(bytes_of("v.img") == image, "the volume isn't touched", over)
            old_mode = before is None or os.stat("a.copy").st_mode & 0o777 == 0o640
            want(over.status != 0 or old_mode, "with the old mode", over)

        makes_whole_or_nothing(EXPORT, "a.copy", prepare, found, wanted, judge)
    # Not over the volume, by whatever name; not over what isn't a regular file; not over what is locked.
    volume()
    image = bytes_of("v.img")
    refuses_its_own_volume(lambda disk, out: ["export", disk, "a", out])
    os.mkdir("place")
    os.mkfifo("tube")
    for out, kind in (("place", "a folder"), ("tube", "a pipe"), ("/dev/null", "a character device")):
        complains(famsync("export", "v.img", "a", out), f"it is {kind}, but a copy can replace only a regular file")
        want(not os.path.exists(f"{out}.new"), "no file is made", out)
    want(famsync("format", "v.img.2", "2", "c=100").status == 0, "another volume is made")
    other = bytes_of("v.img.2")
    session = begun_session(PROGRAM, "v.img.2")
    complains(famsync("export", "v.img", "a", "v.img.2"), "in use by another process")
    session.end()
    want(bytes_of("v.img.2") == other, "a volume in use stays")
    complains(famsync("export", "v.img", "c", "a.copy"), 'it has no file "c"')
    complains(famsync("export", "v.img", "a", "nowhere/a.copy"), "nowhere/a.copy.new")
    want(bytes_of("v.img") == image and not os.path.exists("a.copy.new"), "nothing is touched")
    # A link stays one.
    os.mkdir("there")
    write("there/a.copy", "old")
    os.symlink("there/a.copy", "a.copy")
    want(famsync(*EXPORT).status == 0 and os.path.islink("a.copy"), "through a link")
    want(bytes_of("there/a.copy") == wanted and os.listdir("there") == ["a.copy"], "to where it leads")
