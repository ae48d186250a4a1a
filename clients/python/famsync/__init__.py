"""Files whose changes become durable together.

    with famsync.open("bank.vol") as volume:
        bank = volume.memory("bank")
        bank[0:8] = (93).to_bytes(8, "little")
        bank[8:16] = (7).to_bytes(8, "little")
        volume.commit()                             # both or neither

A volume is a disk file that contains files. If this process is killed or the system crashes, the next session finds the
files of one commit. This is the last commit for which `commit` returned, or a later commit. At any time a volume has at
most one session that writes, or any number of sessions that only read.

A program can access the bytes of a file in two ways: as memory (`Volume.memory`), and with `Volume.read` and
`Volume.write`. If a call of the library fails, the package raises an `Error`.
"""

from __future__ import annotations

from ._creating import create
from ._errors import (
    Address,
    Argument,
    BadShape,
    Broken,
    Busy,
    Damaged,
    Device,
    Error,
    Exists,
    Forked,
    InTransaction,
    InUse,
    Invalid,
    NeedsOpening,
    NoFile,
    NoFrame,
    NoMemory,
    NoSpace,
    NotAVolume,
    NotFound,
    NotRegular,
    OldLayout,
    Overlap,
    ReadOnly,
    Replaced,
    SeveralNames,
    Suspect,
    System,
    Torn,
    Tracking,
    Unmarked,
)
from ._group import Group
from ._library import version
from ._memory import Memory
from ._volume import Info, Path, Stat, Volume

__version__ = "0.3.0"

__all__ = [
    "Address",
    "Argument",
    "BadShape",
    "Broken",
    "Busy",
    "Damaged",
    "Device",
    "Error",
    "Exists",
    "Forked",
    "Group",
    "InTransaction",
    "InUse",
    "Info",
    "Invalid",
    "Memory",
    "NeedsOpening",
    "NoFile",
    "NoFrame",
    "NoMemory",
    "NoSpace",
    "NotAVolume",
    "NotFound",
    "NotRegular",
    "OldLayout",
    "Overlap",
    "ReadOnly",
    "Replaced",
    "SeveralNames",
    "Stat",
    "Suspect",
    "System",
    "Torn",
    "Tracking",
    "Unmarked",
    "Volume",
    "create",
    "open",
    "version",
]


def open(
    path: Path,
    *,
    trust: bool = False,
    frames: int = 0,
    copies: int = 0,
    foreground: bool = False,
    wait_ms: int = 0,
    readonly: bool = False,
    resident: bool = False,
    budget: int = 0,
    kernel_tracking: bool = False,
) -> Volume:
    """Begins and returns a session with a volume. `Volume` describes the arguments."""
    return Volume(
        path,
        trust=trust,
        frames=frames,
        copies=copies,
        foreground=foreground,
        wait_ms=wait_ms,
        readonly=readonly,
        resident=resident,
        budget=budget,
        kernel_tracking=kernel_tracking,
    )
