"""Plain memory: a file of a volume as memory of this process."""

from __future__ import annotations

import ctypes
import operator
import os
import weakref
from types import TracebackType
from typing import TYPE_CHECKING, Any, Dict, NoReturn, Optional, SupportsIndex, Type, overload

from ._errors import Argument, Forked, ReadOnly, check
from ._library import library, words
from ._session import Once

if TYPE_CHECKING:
    from ._volume import Volume


class Lent:
    """Plain memory that the library has opened. When this object is freed, the library closes the memory. Until then
    the object keeps its volume alive."""

    closing: Optional[Once] = None

    def __init__(self, volume: Volume, name: str) -> None:
        self.name = name
        self.pointer = ctypes.c_void_p()
        self.owner = os.getpid()
        self._volume = volume
        closing = Once(library.famsync_memory_close, self.pointer)
        self._at_the_end = closing.with_(self)
        self.closing = closing

    def give_back(self) -> None:
        if self.closing is None:
            return
        if os.getpid() == self.owner:
            self.closing.end()
        else:
            self.closing.forget()

    def __del__(self) -> None:
        self.give_back()


class _Byte(ctypes.Union):
    """A byte of an array of ctypes. A memoryview of such an array has the format "B", which supports indexes. The
    format of c_ubyte, "<B", doesn't."""

    _fields_ = [("byte", ctypes.c_ubyte)]


class Memory:
    """A file as memory of this process, which `Volume.memory` opens.

    Indexes and slices read and store bytes. `view` returns all bytes as a memoryview. `numpy.asarray` returns an array
    that shares the bytes. From Python 3.12 on, the object itself is a writable buffer, like `mmap.mmap`. In a session
    that only reads, stores raise ReadOnly, and views are read-only. A commit makes all stores durable.
    """

    name: str
    _bytes: memoryview

    def __init__(self, lent: Lent, address: int, length: int, readonly: bool) -> None:
        # Every buffer refers to this array, and nothing else does. So the array is freed once no buffer is in use.
        # Then `lent` is freed, too, and closes the memory.
        array = (_Byte * length).from_address(address)
        array.lent = lent  # type: ignore[attr-defined]
        self.name, self._pointer, self._owner = lent.name, lent.pointer, lent.owner
        self._array = weakref.ref(array)
        self._is_readonly = readonly
        self._bytes = self._all_of(array)

    def _all_of(self, array: Any) -> memoryview:
        return memoryview(array).toreadonly() if self._is_readonly else memoryview(array)

    @property
    def _is_closed(self) -> bool:
        return self._array() is None

    def _opened(self) -> memoryview:
        if self._is_closed:
            raise ValueError(f"the memory of {self.name!r} is closed")
        return self._bytes

    def view(self) -> memoryview:
        """Returns all bytes as a memoryview. The memory can't be closed while this view, or an object
        made from it, is in use."""
        return memoryview(self._opened())

    def __buffer__(self, flags: int) -> memoryview:
        return self.view()

    @property
    def __array_interface__(self) -> Dict[str, Any]:
        """NumPy's own form of a buffer, by which an array shares the bytes before Python 3.12, too. The array refers to
        the view, so that the memory can't be closed meanwhile."""
        view = self.view()
        return {"version": 3, "typestr": "|u1", "shape": (len(view),), "data": view}

    def __bytes__(self) -> bytes:
        return bytes(self._opened())

    def __len__(self) -> int:
        return len(self._opened())

    @overload
    def __getitem__(self, key: SupportsIndex) -> int:
        ...

    @overload
    def __getitem__(self, key: slice) -> bytes:
        ...

    def __getitem__(self, key: Any) -> Any:
        # No name is given to a part of it: an error that is kept would keep that, too.
        return bytes(self._opened()[key]) if isinstance(key, slice) else self._opened()[key]

    def __setitem__(self, key: Any, value: Any) -> None:
        if self._is_readonly:
            raise ReadOnly(words(ReadOnly.code))
        if isinstance(key, slice):
            given = memoryview(value)
            value = given.cast("B") if given.c_contiguous else given.tobytes()
        self._opened()[key] = value

    @property
    def dirty(self) -> int:
        """The number of pages (4,096 bytes) that were stored to since the last commit. A page may count even if its
        bytes didn't change. One commit can have at most `Volume.frames` pages."""
        with self.view():  # so it isn't closed meanwhile
            if os.getpid() != self._owner:
                raise Forked(words(Forked.code))
            pages: int = library.famsync_memory_dirty(self._pointer)
            return pages

    def touch(self, offset: int = 0, count: Optional[int] = None) -> None:
        """Makes the pages of `count` bytes from `offset` on writable, as a store to each page would. Without `count`
        the range ends at the end of the memory. Until the next commit or rollback the kernel can store to these pages,
        for instance in `readinto`. Raises NoFrame if the range has more pages than one commit can have."""
        with self.view() as view:  # so it isn't closed meanwhile
            begin = _place(offset, len(view), "offset")
            end = len(view) if count is None else _place(begin + operator.index(count), len(view), "count")
            check(library.famsync_memory_touch(self._pointer, begin, end - begin))

    def close(self) -> None:
        """Closes the memory. Stores since the last commit are lost. Raises BufferError while a buffer of the memory is
        in use: a view that isn't released, or an object made from a view. The memory then stays open."""
        if self._is_closed:
            return
        self._bytes.release()
        if not self._is_closed:
            self._take_again()
            raise BufferError(f"the memory of {self.name!r} can't be closed while somebody has a buffer of it")

    def _take_again(self) -> None:
        # In `close`, the traceback of its error would keep a variable for the array, and so the array.
        array = self._array()
        if array is not None:
            self._bytes = self._all_of(array)

    def __reduce__(self) -> NoReturn:
        raise TypeError("the memory of a volume can't be copied")

    def __repr__(self) -> str:
        how = "closed" if self._is_closed else f"{len(self._bytes)} bytes"
        return f"<famsync.Memory of {self.name!r}, {how}>"

    def __enter__(self) -> Memory:
        self._opened()
        return self

    def __exit__(
        self, kind: Optional[Type[BaseException]], value: Optional[BaseException], trace: Optional[TracebackType]
    ) -> None:
        try:
            self.close()
        except BufferError:
            if kind is None:
                raise


def _place(value: Any, length: int, what: str) -> int:
    place = operator.index(value)
    if not 0 <= place <= length:
        raise Argument(f"{what} isn't within the memory")
    return place


def open_memory(handle: ctypes.c_void_p, lent: Lent, address: int, readonly: bool) -> Memory:
    """Opens plain memory of a file at `address`, or anywhere if `address` is 0. If an interrupt stops this function, no
    memory stays open."""
    try:
        encoded, pointer = os.fsencode(lent.name), ctypes.byref(lent.pointer)
        if address == 0:
            check(library.famsync_memory_open(handle, encoded, pointer))
        else:
            check(library.famsync_memory_open_at(handle, encoded, address, pointer))
        address, length = library.famsync_memory_at(lent.pointer), library.famsync_memory_length(lent.pointer)
        return Memory(lent, address, length, readonly)
    except BaseException:
        lent.give_back()
        raise
