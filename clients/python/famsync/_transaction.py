"""Transactions: all changes of a `with` block become durable, or none."""

from __future__ import annotations

import ctypes
from contextlib import ContextDecorator, suppress
from types import TracebackType
from typing import TYPE_CHECKING, NoReturn, Optional, Type

from ._errors import Broken, check
from ._library import library

if TYPE_CHECKING:
    from ._volume import Volume


class Transaction(ContextDecorator):
    """A transaction, for a `with` block. `Volume.transaction` makes it.

    The library knows that the transaction is open, until its commit or rollback has succeeded. So if an interrupt
    (KeyboardInterrupt) comes between two steps of Python code, even just before or after the block, the transaction is
    over or still open. While it is open, nothing else commits a part of it.
    """

    def __init__(self, volume: Volume) -> None:
        self._volume = volume
        self._number = 0

    def __enter__(self) -> None:
        number = self._volume._number_of_thread()
        before = number.value
        try:
            check(self._volume._session.call(library.famsync_transaction_begin, ctypes.byref(number)))
            self._number = number.value
        except BaseException:
            if number.value != before:
                self._volume._undo_left(number.value)
            raise

    def __exit__(
        self, kind: Optional[Type[BaseException]], value: Optional[BaseException], trace: Optional[TracebackType]
    ) -> None:
        if kind is None:
            self._commit()
        else:
            self._undo()

    def _commit(self) -> None:
        mark = ctypes.c_uint64()
        try:
            check(self._volume._session.call(library.famsync_transaction_commit, self._number, ctypes.byref(mark)))
        except BaseException:
            if mark.value == 0:  # otherwise it is committed, and an interrupt came afterwards
                self._undo()
            raise

    def _undo(self) -> None:
        with suppress(Broken):  # a write or a sync failed, so the session is over
            self._volume._undo_left(self._number)

    def __reduce__(self) -> NoReturn:
        raise TypeError("a transaction can't be copied")
