"""A session with a volume."""

from __future__ import annotations

import ctypes
import operator
import os
import sys
import threading
import weakref
from contextlib import suppress
from types import TracebackType
from typing import Any, Dict, List, NamedTuple, NoReturn, Optional, Set, Tuple, Type, Union

from . import _library
from ._errors import Argument, Busy, Error, NoFile, Overlap, check
from ._group import Group
from ._library import Options, library
from ._memory import Lent, Memory, open_memory
from ._session import Once, Session
from ._transaction import Transaction

# FAMSYNC_MESSAGE_SIZE of famsync.h.
MESSAGE = 9000
Path = Union[str, bytes, "os.PathLike[str]", "os.PathLike[bytes]"]


class Stat(NamedTuple):
    """Statistics of a session, which `Volume.stat` returns. System calls are counted from the opening on."""

    commits: int  # the number of the last commit that was acknowledged
    frames: int  # the most pages of one commit
    staged: int  # pages that wait for a commit, those of plain memory, too
    unwritten: int  # blocks of commits that wait to be written to their places, or blocks of the log in use
    reads: int  # reads of the volume's file
    writes: int  # writes to it
    syncs: int  # syncs of it
    bytes_written: int  # bytes that were written to it
    memory: int  # bytes of memory that the sessions of this process take for pages and commits


class Info(NamedTuple):
    """What a volume is, which `Volume.info` returns."""

    layout: int  # 5 or 6
    blocks: int  # blocks of the volume, of 4,096 bytes each
    files: int  # the number of files
    log: int  # blocks of the log
    log_used: int  # blocks of the log in use
    frames: int  # the most pages that one commit can have; the option `frames` can set a lower limit
    readonly: bool  # whether the session only reads


def _number(value: Any, bits: int, what: str) -> int:
    """Returns a number. Raises Argument if it is negative or has more than `bits` bits."""
    number = operator.index(value)
    if not 0 <= number < 1 << bits:
        raise Argument(f"{what} is {number}")
    return number


def _name(name: str) -> bytes:
    """Returns a name in bytes. Refuses a name with a null byte, because the library would cut it off there."""
    if "\0" in name:
        raise Argument("a file's name has no null byte")
    return os.fsencode(name)


# How many bits the options have that are numbers; the others are true or false.
_BITS = {"frames": 32, "copies": 32, "wait_ms": 32, "budget": 8 * ctypes.sizeof(ctypes.c_size_t)}


def _options(said: Any, **given: Any) -> Options:
    """Returns the options of a session. `said` is the buffer for the library's message if the session doesn't begin."""
    fields = {
        name: _number(value, _BITS[name], name) if name in _BITS else bool(value) for name, value in given.items()
    }
    return Options(
        size=ctypes.sizeof(Options), message=ctypes.addressof(said), message_size=ctypes.sizeof(said), **fields
    )


def _path(path: Path) -> bytes:
    encoded = os.fsencode(path)
    if b"\0" in encoded:
        raise Argument("a path has no null byte")
    return encoded


def _files(handle: ctypes.c_void_p) -> Dict[str, int]:
    numbers = range(library.famsync_files(handle))
    return {
        library.famsync_file_name(handle, file).decode(): library.famsync_file_length(handle, file)
        for file in numbers
    }


def _capacities(handle: ctypes.c_void_p) -> Dict[str, int]:
    numbers = range(library.famsync_files(handle))
    return {
        library.famsync_file_name(handle, file).decode(): library.famsync_capacity(handle, file)
        for file in numbers
    }


def _numbers(handle: ctypes.c_void_p) -> Dict[str, int]:
    """Returns the number of each file, by the file's name."""
    numbers = range(library.famsync_files(handle))
    return {library.famsync_file_name(handle, number).decode(): number for number in numbers}


def _new_file(path: Path) -> int:
    return os.open(_path(path), os.O_RDWR | os.O_CREAT | os.O_CLOEXEC, 0o666)


def _sync_folder(path: Path) -> None:
    folder = os.open(os.path.dirname(_path(path)) or b".", os.O_RDONLY | os.O_DIRECTORY | os.O_CLOEXEC)
    try:
        os.fsync(folder)
    finally:
        os.close(folder)


class Volume:
    """A session with the volume at `path`. `famsync.open` begins a session.

    - `trust`: opens the volume even if an earlier sync of it failed.
    - `frames`: the greatest number of pages in one commit; 0 means the limit of the volume.
    - `copies`: ignored.
    - `foreground`: the library starts no thread. Otherwise its thread makes some writes of a commit after the commit
      was acknowledged.
    - `wait_ms`: how long to wait for a volume that is in use, in milliseconds. After that time `open` raises InUse.
    - `readonly`: the session only reads. Any number of such sessions can share a volume.
    - `resident`: the library reads the whole file to open its plain memory, instead of mapping the volume's file.
    - `budget`: how many bytes the committed pages of plain memory and their copies may use; 0 means 64 MB.
    - `kernel_tracking`: the kernel tracks stores to plain memory, including its own stores, without a handler of
      SIGSEGV. If the system can't do this, Tracking is raised. If another thread stores during a commit, the commit can
      raise Busy. This option can't be combined with `resident`.

    Threads can share a `Volume`. Threads that commit at the same time can share one commit. A `with` block closes the
    volume at its end.
    """

    def __init__(
        self,
        path: Path,
        *,
        trust: bool = False,
        frames: int = 0,
        copies: int = 0,
        foreground: bool = False,
        wait_ms: int = 0,
        readonly: bool = False,
        resident: bool = False,
        budget: int = 0,
        kernel_tracking: bool = False,
    ) -> None:
        self._memories: List[weakref.ref[Memory]] = []  # a list can be copied while other threads change it
        self._lent: List[Tuple[Once, weakref.ref[Lent]]] = []
        self._lengths: Dict[str, List[int]] = {}
        self._groups: Dict[object, int] = {}  # for each open group the code of famsync_begin
        self._transactions: Dict[int, ctypes.c_uint64] = {}  # for each thread the number of its last transaction
        self._left: Set[int] = set()  # the numbers of transactions whose blocks have ended without a commit
        self.path = path
        said = ctypes.create_string_buffer(MESSAGE)
        options = _options(
            said,
            trust=trust,
            frames=frames,
            copies=copies,
            foreground=foreground,
            wait_ms=wait_ms,
            readonly=readonly,
            resident=resident,
            budget=budget,
            tracking=kernel_tracking,
            fixed=True,  # a buffer of memory that became shorter would have bytes that are gone
        )
        encoded = _path(path)
        self._session = Session(f"the volume {os.fsdecode(path)!r}")
        self._at_the_end = self._session.closing.with_(self)
        self._is_readonly = bool(readonly)
        try:
            code = library.famsync_open(encoded, ctypes.byref(options), ctypes.byref(self._session.handle))
            check(code, said.value.decode("utf-8", "replace"))
            self._numbers = self._session.call(_numbers)
        except BaseException:
            self._session.closing.end()
            raise

    @property
    def files(self) -> Dict[str, int]:
        """The length of each file in this session, committed or not, by the file's name."""
        return self._session.call(_files)

    @property
    def capacities(self) -> Dict[str, int]:
        """The capacity (greatest length) of each file, by the file's name."""
        return self._session.call(_capacities)

    @property
    def frames(self) -> int:
        """The greatest number of pages (4,096 bytes) in one commit."""
        frames: int = self._session.call(library.famsync_frames)
        return frames

    @property
    def acknowledged(self) -> int:
        """The number of the last acknowledged commit; 0 if there is none."""
        mark: int = self._session.call(library.famsync_acknowledged)
        return mark

    def memory(self, name: str, *, address: int = 0) -> Memory:
        """Opens plain memory of a whole file. If `address` isn't 0, the memory is at this address, so that the file can
        contain pointers into itself. Raises Address if memory can't be there, Overlap if memory of the file is already
        open, and Argument if the file is empty."""
        bits = 8 * ctypes.sizeof(ctypes.c_void_p)
        return self._session.call(self._open_memory, name, _number(address, bits, "address"))

    def _open_memory(self, handle: ctypes.c_void_p, name: str, address: int) -> Memory:
        self._take_back()
        lent = Lent(self, os.fsdecode(_name(name)))
        self._lent.append((lent.closing, weakref.ref(lent)))
        memory = open_memory(handle, lent, address, self._is_readonly)
        self._memories.append(weakref.ref(memory))
        return memory

    def _take_back(self) -> None:
        """Closes memory that an interrupt has left open though its `Lent` is gone. Several threads may call this at
        once."""
        for one in [one for one in self._lent if one[1]() is None]:
            one[0].end()
            with suppress(ValueError):
                self._lent.remove(one)
        for gone in [memory for memory in self._memories if memory() is None]:
            with suppress(ValueError):
                self._memories.remove(gone)

    def _opened_memories(self) -> List[Memory]:
        return [opened for memory in self._memories if (opened := memory()) is not None]

    def _closings_of(self, name: str) -> List[Once]:
        """Returns what closes each memory of a file that is open."""
        self._take_back()
        return [closing for closing, lent in self._lent if (one := lent()) and one.name == name and closing.pointer]

    def read(self, name: str, offset: int = 0, count: Optional[int] = None) -> bytes:
        """Returns `count` bytes of a file from `offset` on, or fewer if the file ends before. Without `count` it
        returns the bytes up to the file's end. The bytes include changes that aren't committed yet. If plain memory of
        the file is open, they are read from this memory."""
        most = None if count is None else _number(count, 64, "count")
        return self._session.call(self._read, name, _number(offset, 64, "offset"), most)

    def _read(self, handle: ctypes.c_void_p, name: str, offset: int, count: Optional[int]) -> bytes:
        number = self._number_of(name)
        left = max(0, library.famsync_file_length(handle, number) - offset)
        found, done = bytearray(left if count is None else min(count, left)), ctypes.c_size_t()
        at = ctypes.byref(ctypes.c_char.from_buffer(found)) if found else None
        code = library.famsync_read(handle, number, offset, at, len(found), ctypes.byref(done))
        read = bytes(found[: done.value])
        check(code, done=done.value, read=read)
        return read

    def write(self, name: str, offset: int, value: Any) -> None:
        """Writes bytes, or the bytes of a buffer, to a file from `offset` on. Raises Invalid if a byte would be past
        the file's end, and NoFrame if the next commit has no room for the pages. In both cases nothing is written.

        The written bytes wait in memory for `commit`. If plain memory of the file is open, a write is a store to this
        memory."""
        written = value if isinstance(value, bytes) else memoryview(value).tobytes()
        self._session.call(self._write, name, _number(offset, 64, "offset"), written)

    def _write(self, handle: ctypes.c_void_p, name: str, offset: int, value: bytes) -> None:
        done = ctypes.c_size_t()
        code = library.famsync_write(handle, self._number_of(name), offset, value, len(value), ctypes.byref(done))
        check(code, done=done.value)

    def _number_of(self, name: str) -> int:
        number = self._numbers.get(os.fsdecode(_name(name)))
        if number is None:
            raise NoFile(f"the volume has no file {name!r}")
        return number

    def stat(self) -> Stat:
        """Returns statistics of this session: commits, waiting pages, system calls, memory."""
        found = _library.Stat(size=ctypes.sizeof(_library.Stat))
        check(self._session.call(library.famsync_stat, ctypes.byref(found)))
        return Stat(*(getattr(found, name) for name in Stat._fields))

    def info(self) -> Info:
        """Returns what the volume is: its layout, its blocks, its log, its greatest commit."""
        found = _library.VolumeInfo(size=ctypes.sizeof(_library.VolumeInfo))
        check(self._session.call(library.famsync_volume_info, ctypes.byref(found)))
        return Info(*(getattr(found, name) for name in Info._fields))._replace(readonly=found.readonly != 0)

    def backup(self, file: Union[Path, int, Any]) -> None:
        """Writes a volume with the files of the last acknowledged commit. Opening this volume needs no recovery. Other
        threads may commit meanwhile.

        `file` is a path, a file descriptor, or an object with the method `fileno`. At a path the file is made or
        overwritten. A descriptor has to be open for reading and writing. The file is emptied first, and synced at the
        end. Raises Busy if the session is already making a backup."""
        if isinstance(file, int):
            self._back_up(file)
        elif hasattr(file, "fileno"):
            self._back_up(file.fileno())
        else:
            self._back_up_to(file)

    def _back_up(self, descriptor: int) -> None:
        check(self._session.call(library.famsync_backup, _number(descriptor, 31, "the descriptor")))

    def _back_up_to(self, path: Path) -> None:
        descriptor = _new_file(path)
        try:
            self._back_up(descriptor)
        finally:
            os.close(descriptor)
        _sync_folder(path)

    def set_length(self, name: str, length: int) -> None:
        """Sets the length of a file, up to its capacity. Bytes past a new end are lost, and added bytes are zeros. Like
        a write, the new length is durable after the next commit. All pages that are added to a file count as written.

        Raises Invalid if the length is above the capacity. Raises NoFrame if one
        commit can't have the added pages and the other waiting pages. Raises Busy while plain memory of the file is
        open, because somebody may have a buffer of this memory."""
        self._session.call(self._set_length, name, _number(length, 64, "length"))

    def _set_length(self, handle: ctypes.c_void_p, name: str, length: int) -> None:
        encoded = _name(name)
        file = os.fsdecode(encoded)
        self._take_back()
        before = self._lengths.get(file)
        mine: List[int] = []
        self._lengths[file] = mine
        code = library.famsync_setlength(handle, encoded, length)
        if code == 0:
            self._lengths[file] = [library.famsync_acknowledged(handle)]
        elif self._lengths.get(file) is mine and before is None:
            self._lengths.pop(file, None)
        elif self._lengths.get(file) is mine and before is not None:
            self._lengths[file] = before
        if code == Overlap.code:
            raise Busy(f"memory of {name!r} is open")
        check(code)

    def _may_change_length(self, name: str) -> bool:
        """Whether a rollback may change the length of a file. If the length was set, `_lengths` has the number of the
        last commit before, or no number as long as that isn't known."""
        return name in self._lengths and self._lengths[name] in ([], [self.acknowledged])

    def commit(self) -> int:
        """Makes all changes of this session durable, or none. Returns when they are durable, with the commit's number,
        counted from 1 in each session. If the commit fails and the session continues, all changes wait for the next
        commit. Raises NoSpace if the disk is full; then the session continues."""
        mark = ctypes.c_uint64()
        check(self._session.call(library.famsync_msync, ctypes.byref(mark)))
        return mark.value

    def rollback(self) -> None:
        """Undoes all changes since the last commit: stores to plain memory, writes and lengths. If it fails, all
        changes still wait for a commit, with two exceptions. After System a part may be undone: commits then raise Torn
        until a rollback succeeds. After Device the session may be over.

        If a file's length was set since the last commit, its memory is closed first. Raises BufferError if somebody has
        a buffer of this memory.

        In the block of a transaction it ends the transaction. If other changes follow in the block, the block's end
        undoes them, and raises Torn. Raises InTransaction if a transaction of another thread is open."""
        self._undo(self._number_to_undo())

    def _number_of_thread(self) -> ctypes.c_uint64:
        """Returns the number of this thread's last transaction; 0 if it had none."""
        return self._transactions.setdefault(threading.get_ident(), ctypes.c_uint64())

    def _number_to_undo(self) -> int:
        """Returns the number of the transaction that `rollback` may end, if one is open: one of this thread, of a
        thread that has ended, or one whose block has ended. Numbers increase, and only the last one can be open."""
        others = sys._current_frames().keys() - {threading.get_ident()}
        numbers = [number.value for thread, number in list(self._transactions.items()) if thread not in others]
        return max(numbers + list(self._left), default=0)

    def _undo_left(self, number: int) -> None:
        """Rolls back a transaction whose block has ended. If this fails, any thread may roll it back."""
        self._left.add(number)
        self._undo(number)
        self._left.discard(number)

    def _undo(self, number: int) -> None:
        lengths, code = self._rolled_back(number)
        while code == Overlap.code and lengths:  # another thread has opened memory again meanwhile
            lengths, code = self._rolled_back(number)
        check(code)
        for name, length in lengths.items():
            if self._lengths.get(name) is length:
                self._lengths.pop(name, None)

    def _rolled_back(self, number: int) -> Tuple[Dict[str, List[int]], int]:
        """Returns the lengths that were set before a rollback, and the rollback's code."""
        lengths = dict(self._lengths)
        for name in filter(self._may_change_length, lengths):
            self._close_memory_of(name)
        if number == 0:
            return lengths, self._session.call(library.famsync_rollback)
        return lengths, self._session.call(library.famsync_transaction_rollback, number)

    def _close_memory_of(self, name: str) -> None:
        closings = self._closings_of(name)
        for memory in [memory for memory in self._opened_memories() if memory.name == name]:
            memory.close()
        if any(closing.pointer for closing in closings):
            # of a Memory that was dropped there is a view
            raise BufferError(f"the length of {name!r} can't be undone while somebody has a buffer of its memory")

    def transaction(self) -> Transaction:
        """Returns a transaction for a `with` block. The end of the block commits. If the block raises an exception, or
        the commit fails, all changes are rolled back, and the exception is raised again. If the session is over, there
        is nothing to roll back.

            with volume.transaction():
                bank[0:8] = (93).to_bytes(8, "little")
                bank[8:16] = (7).to_bytes(8, "little")

        A session has at most one open transaction: until it ends, `transaction` and `commit` raise InTransaction, in
        each thread. All changes of the session belong to it, also those of other threads, and those that waited for a
        commit when it began. If it can't be rolled back, or an interrupt (Ctrl-C) comes just before or after the block,
        it stays open until a `rollback` succeeds."""
        return self._session.call(self._new_transaction)

    def _new_transaction(self, handle: ctypes.c_void_p) -> Transaction:
        return Transaction(self)

    def group(self) -> Group:
        """Returns a group for a `with` block. Each commit has all changes that this thread makes in the block, or none
        of them. Any number of threads can be in such blocks. `commit` and `rollback` wait until all of them have left
        their blocks, and meanwhile no other block begins. In the block, the same thread's `commit` and `rollback` raise
        Busy. If the block raises an exception, the changes made so far still wait for a commit.

            with volume.group():
                bank[0:8] = (93).to_bytes(8, "little")
                bank[8:16] = (7).to_bytes(8, "little")

        If a thread ends within a block, commits raise Torn until a rollback."""
        return self._session.call(Group, self, self._session, self._groups)

    def close(self) -> None:
        """Ends the session, and closes its plain memory. Changes since the last commit are lost. Waits for the calls of
        other threads. In a forked process it does nothing.

        Raises BufferError if somebody has a buffer of plain memory, and Busy if a thread is in the block of a group;
        the volume then stays open. Raises Device if a
        write or a sync failed; the volume is then closed, and all acknowledged commits are durable. Raises RuntimeError
        within a call with this volume, for instance in a signal handler."""
        check(self._session.end(self._close_memories))

    def _close_memories(self) -> None:
        if 0 in self._groups.values():
            raise Busy("a group is open")
        for memory in self._opened_memories():
            memory.close()
        self._take_back()
        if any(closing.pointer for closing, _ in self._lent):
            # of a Memory that was dropped there is a view
            raise BufferError("the volume can't be closed while somebody has a buffer of its memory")

    def __enter__(self) -> Volume:
        return self

    def __exit__(
        self, kind: Optional[Type[BaseException]], value: Optional[BaseException], trace: Optional[TracebackType]
    ) -> None:
        try:
            self.close()
        except (Error, BufferError):
            if kind is None:
                raise

    def __del__(self) -> None:
        if hasattr(self, "_session"):
            try:
                self.close()
            except (Error, BufferError):
                pass

    def __reduce__(self) -> NoReturn:
        raise TypeError("a volume can't be copied")

    def __repr__(self) -> str:
        return f"<famsync.Volume {os.fsdecode(self.path)!r}>"
