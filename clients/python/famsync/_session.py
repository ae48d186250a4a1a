"""The library's handle of a session, which all threads can use."""

from __future__ import annotations

import ctypes
import os
import sys
import threading
import time
import weakref
from functools import partial
from itertools import starmap
from types import FrameType
from typing import Any, Callable, Dict, NoReturn, Optional, Set, TypeVar

from ._errors import Forked
from ._library import library, words

T = TypeVar("T")


class Once:
    """A call of the library that closes what a pointer refers to. It is made at most once.

    An interrupt (KeyboardInterrupt) can come between any two steps of Python code, even within `__del__`, where Python
    ignores it. If an interrupt came after the pointer was taken and before the call, the call would never be made. So
    `next` of an iterator does both, in C code alone. If an interrupt comes before both, `end` can be called again.
    Otherwise the interrupt comes after both.
    """

    def __init__(self, call: Callable[[Any], int], pointer: ctypes.c_void_p) -> None:
        self._left: Dict[int, ctypes.c_void_p] = {0: pointer}
        take = partial(self._left.pop, 0, None)
        self._ending = map(call, iter(take, None))

    @property
    def pointer(self) -> Optional[ctypes.c_void_p]:
        """The pointer, or None if the call was made or the pointer was never set."""
        pointer = self._left.get(0)
        return pointer if pointer else None

    def end(self) -> int:
        """Makes the call, and returns its code. Returns 0 if the call was made before."""
        return next(self._ending, 0)

    def forget(self) -> None:
        """Makes `end` do nothing from now on."""
        self._left.clear()

    def with_(self, owner: object) -> weakref.ref[Any]:
        """Returns a weak reference to `owner`, which the owner has to keep. When the owner is freed, after its
        `__del__`, the reference makes the call, in C code alone."""
        return weakref.ref(owner, partial(next, self._ending))


class Session:
    """A session's handle of the library. `end` waits for the calls of other threads.

    No variable counts the calls, and no lock guards them, because a signal handler that raises could leave both in a
    wrong state. Instead `end` asks the interpreter which threads are in a call.
    """

    def __init__(self, what: str) -> None:
        self.handle = ctypes.c_void_p()
        self.closing = Once(library.famsync_close, self.handle)
        self._what = what
        self._owner = os.getpid()
        self._is_ending = False
        self._ends = threading.RLock()

    def __reduce__(self) -> NoReturn:
        raise TypeError("a session with a volume can't be copied")

    @property
    def is_forked(self) -> bool:
        """Whether this process was forked after the session object was made."""
        return os.getpid() != self._owner

    def call(self, function: Callable[..., T], *arguments: Any) -> T:
        """Calls a function with the handle and these arguments, and returns its result. The function must not keep the
        handle. Raises Forked in a forked process, and ValueError if the session was closed."""
        if self.is_forked:
            raise Forked(words(Forked.code))
        handle = None if self._is_ending else self.closing.pointer
        if handle is None:
            raise ValueError(f"{self._what} is closed")
        return function(handle, *arguments)

    def _callers(self) -> Set[int]:
        """Returns the threads that are within `call`. No variable here refers to a frame. One of the frames is this
        function's own, so after an exception it would refer to itself."""
        return set(filter(None, starmap(self._if_within, sys._current_frames().items())))

    def _if_within(self, thread: int, frame: Optional[FrameType]) -> Optional[int]:
        """Returns the thread if `frame` is within `call`, or else None."""
        while frame is not None and not (frame.f_code is CALL and frame.f_locals.get("self") is self):
            frame = frame.f_back
        return None if frame is None else thread

    def end(self, prepare: Callable[[], None]) -> int:
        """Ends the session, and returns the library's code. Before that, waits until no thread is in a call, and calls
        `prepare`. If an exception comes before the end, the session continues. Returns 0 in a forked process, or if the
        session was ended before. Raises RuntimeError within a call of this session."""
        if self.is_forked:
            return 0
        if threading.get_ident() in self._callers():
            raise RuntimeError(f"{self._what} can't be closed from within a call with it")
        with self._ends:
            try:
                self._is_ending = True
                while self._callers():
                    time.sleep(0.001)
                prepare()
                return self.closing.end()
            except BaseException:
                self._is_ending = False
                raise


CALL = Session.call.__code__
