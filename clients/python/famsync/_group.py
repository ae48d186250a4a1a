"""A group of changes, which a thread makes between two calls of the library."""

from __future__ import annotations

import ctypes
import weakref
from functools import partial
from itertools import compress, repeat
from types import TracebackType
from typing import Dict, NoReturn, Optional, Type

from ._errors import check
from ._library import library
from ._session import Session


class Group:
    """A group of the thread that begins it, for a `with` block. `Volume.group` makes it.

    An interrupt (KeyboardInterrupt) can come between any two steps of Python code. So C code alone begins the group and
    notes this in `codes`, and C code alone takes the note and ends the group. If an interrupt comes before the block,
    the group ends when this object is freed.
    """

    def __init__(self, handle: ctypes.c_void_p, owner: object, session: Session, codes: Dict[object, int]) -> None:
        self._owner, self._session, self._codes, self._key = owner, session, codes, object()
        noted = map((0).__eq__, iter(partial(codes.pop, self._key, None), None))
        self._ending = map(library.famsync_end, compress(repeat(handle), noted))
        self._end = weakref.ref(self, partial(next, self._ending))

    def __enter__(self) -> None:
        if self._key in self._codes:
            raise RuntimeError("this group has begun; volume.group() makes another one")
        self._session.call(self._begin)

    def _begin(self, handle: ctypes.c_void_p) -> None:
        self._codes.update(zip((self._key,), map(library.famsync_begin, (handle,))))
        code = self._codes[self._key]
        if code != 0:
            self._codes.pop(self._key)
        check(code)

    def __exit__(
        self, kind: Optional[Type[BaseException]], value: Optional[BaseException], trace: Optional[TracebackType]
    ) -> None:
        code = next(self._ending, 0)
        if kind is None:
            check(code)

    def __reduce__(self) -> NoReturn:
        raise TypeError("a group can't be copied")
