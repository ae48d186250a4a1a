"""Making a volume."""

from __future__ import annotations

import ctypes
from typing import Mapping, Optional, Tuple, Union

from . import _library
from ._errors import Argument, check
from ._library import library
from ._volume import MESSAGE, Path, _name, _number, _path

Length = Union[int, Tuple[int, int]]


def _new_file(name: str, length: Length) -> _library.NewFile:
    begins, grows = length if isinstance(length, tuple) else (length, 0)
    return _library.NewFile(_name(name), _number(begins, 64, "a length"), _number(grows, 64, "a capacity"))


def create(
    path: Path,
    files: Mapping[str, Length],
    *,
    layout: int = 5,
    preallocate: bool = False,
    log: Optional[int] = None,
    key: int = 0,
) -> None:
    """Makes a volume in a new file at `path`. Raises System, with the errno EEXIST, if the path exists. `files` maps
    the name of each file to its length, or to a pair of its length and its capacity. A file can grow up to its
    capacity.

        famsync.create("bank.vol", {"bank": 8192, "log": (0, 1 << 40)})

    `layout` is 5 or 6. `log` is the number of blocks of the log, by default 16,384. A commit has to fit into the log.
    In layout 6, `key` is the key of the digests; 0 means a random key.

    With `preallocate` all disk blocks are allocated now. Otherwise a block is allocated before it is first written.
    Raises Argument if these arguments describe no valid volume."""
    made = [_new_file(name, length) for name, length in files.items()]
    said = ctypes.create_string_buffer(MESSAGE)
    plan = _library.Plan(
        size=ctypes.sizeof(_library.Plan),
        layout=_at_least_one(layout, "the layout"),
        files=len(made),
        file=(_library.NewFile * len(made))(*made),
        preallocate=bool(preallocate),
        message=ctypes.addressof(said),
        message_size=ctypes.sizeof(said),
        log=0 if log is None else _at_least_one(log, "the number of blocks of the log"),
        key=_number(key, 64, "the key"),
    )
    check(library.famsync_format(_path(path), ctypes.byref(plan)), said.value.decode("utf-8", "replace"))


def _at_least_one(value: int, what: str) -> int:
    """Returns a number. Refuses 0, which would mean the default to the library."""
    number = _number(value, 32, what)
    if number == 0:
        raise Argument(f"{what} is 0")
    return number
