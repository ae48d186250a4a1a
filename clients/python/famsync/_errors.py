"""The errors: a subclass of `Error` for each code of the library."""

from __future__ import annotations

import ctypes
import errno
import os
from typing import Dict, Type

from ._library import why, words


class Error(Exception):
    """The library refused a call, or the call failed.

    `code` is the code in famsync.h. If a read or a write of a file failed in the middle, `done` is the number of bytes
    that were read or written before, and `read` contains the bytes read.
    """

    code = 0

    def __init__(self, *what: object, done: int = 0, read: bytes = b"") -> None:
        super().__init__(*what)
        self.done, self.read = done, read


class Argument(Error, ValueError):
    """An argument is invalid."""

    code = -1


class NoMemory(Error, MemoryError):
    """The system refused memory."""

    code = -2


class System(Error, OSError):
    """A system call failed; `errno` has the cause."""

    code = -3


class NotFound(System, FileNotFoundError):
    """A file or a folder doesn't exist."""


class Exists(System, FileExistsError):
    """A file already exists."""


class InUse(Error):
    """The volume is already open, in this process or in another process."""

    code = -6


class Suspect(Error):
    """An earlier sync of the volume failed, so `open` needs trust=True."""

    code = -7


class Forked(Error):
    """The volume was opened before this process was forked."""

    code = -11


class Torn(Error):
    """Plain memory was closed after a failed commit, a rollback failed halfway, or a thread ended within a group. Roll
    back before the next commit."""

    code = -12


class NotRegular(Error):
    """The path names a folder, a device, a pipe or a socket."""

    code = -13


class SeveralNames(Error):
    """The volume's file has several names (hard links), so another process could use it under another name."""

    code = -14


class Replaced(Error):
    """After each attempt to lock the volume's file, the path named another file."""

    code = -15


class NotAVolume(Error):
    """The file doesn't begin like a volume."""

    code = -16


class Damaged(Error):
    """The file begins like a volume, but its bytes or its length break the rules of the format."""

    code = -17


class OldLayout(Error):
    """The volume has one of layouts 1 to 4. Copy it with `famsync migrate --layout 5 OLD NEW`."""

    code = -47


class BadShape(Error):
    """`frames` is more than the number of pages that one commit of this volume can have."""

    code = -18


class NoFrame(Error):
    """More pages were written, or added to a file, than one commit can have."""

    code = -27


class Device(Error, OSError):
    """A read, a write or a sync of the volume failed; `errno` has the cause, such as ENOSPC, EIO or ENOMEM."""

    code = -28


class Broken(Error, OSError):
    """A write or a sync failed earlier, so the session is over; `errno` has the cause."""

    code = -29


class Invalid(Error):
    """A byte is past the file's end. Or a new length is above the file's capacity."""

    code = -30


class Overlap(Error):
    """Plain memory of the file is already open."""

    code = -33


class NoFile(Error):
    """The volume has no such file."""

    code = -34


class Busy(Error):
    """The call can't be made in this state of the session.

    - `set_length`: plain memory of the file is open.
    - `backup`: another backup is being made.
    - `commit`: with kernel tracking, a thread stored during the commit. Or the session has made 2^32 - 1 commits.
    - `commit`, `rollback`: this thread is in the block of a group.
    - `close`: a thread is in the block of a group.
    """

    code = -35


class Unmarked(Error, OSError):
    """A sync failed, and the library couldn't flag the volume as suspect; `errno` has the cause of the failed sync."""

    code = -39


class NeedsOpening(Error):
    """A crash or a failed sync left work that only a writing session can do. Open the volume once without
    readonly=True."""

    code = -40


class ReadOnly(Error):
    """The session only reads."""

    code = -41


class Address(Error):
    """Plain memory can't be at this address."""

    code = -42


class NoSpace(Error, OSError):
    """The disk is full, or a quota is used up; `errno` has the cause. Nothing changed: `commit` again once the disk has
    room, or roll back."""

    code = -46


class Tracking(Error):
    """The system can't track stores to plain memory in the requested way."""

    code = -44


class InTransaction(Error):
    """A transaction of this session is open, or its rollback failed. Until it ends, `commit`, `transaction` and other
    threads' `rollback` raise this error."""

    code = -45


CLASSES = {kind.code: kind for kind in Error.__subclasses__()}

# System, for numbers for which Python has a class.
_BY_ERRNO: Dict[int, Type[System]] = {errno.ENOENT: NotFound, errno.EEXIST: Exists}


def check(code: int, message: str = "", done: int = 0, read: bytes = b"") -> None:
    """Raises the error of a code other than 0, which this thread's last call of the library returned. Without `message`
    the error has the library's text about this call."""
    if code == 0:
        return
    kind, error = CLASSES.get(code, Error), ctypes.get_errno()
    said = message or why() or words(code)
    if issubclass(kind, OSError):
        kind = _BY_ERRNO.get(error, kind) if kind is System else kind
        raise kind(error, said, done=done, read=read)
    raised = kind(said, done=done, read=read)
    raised.code = code
    raise raised
