"""Finds and loads the shared library, and declares the types of its calls. clients/c/famsync.h describes the calls."""

from __future__ import annotations

import ctypes
import os
from ctypes import POINTER, c_char_p, c_int, c_size_t, c_uint, c_uint64, c_void_p

NAME = "libfamsync.so.1"


class Options(ctypes.Structure):
    """struct famsync_options"""

    _fields_ = [
        ("size", c_size_t),
        ("trust", c_int),
        ("frames", c_uint),
        ("copies", c_uint),
        ("foreground", c_int),
        ("message", c_void_p),
        ("message_size", c_size_t),
        ("wait_ms", c_uint),
        ("readonly", c_int),
        ("resident", c_int),
        ("budget", c_size_t),
        ("tracking", c_int),
        ("fixed", c_int),
    ]


class NewFile(ctypes.Structure):
    """struct famsync_new_file"""

    _fields_ = [("name", c_char_p), ("length", c_uint64), ("capacity", c_uint64)]


class Plan(ctypes.Structure):
    """struct famsync_plan"""

    _fields_ = [
        ("size", c_size_t),
        ("layout", c_uint),
        ("files", c_uint),
        ("file", POINTER(NewFile)),
        ("preallocate", c_int),
        ("message", c_void_p),
        ("message_size", c_size_t),
        ("log", c_uint),
        ("key", c_uint64),
    ]


class Stat(ctypes.Structure):
    """struct famsync_stat"""

    _fields_ = [
        ("size", c_size_t),
        ("commits", c_uint64),
        ("frames", c_uint64),
        ("staged", c_uint64),
        ("unwritten", c_uint64),
        ("reads", c_uint64),
        ("writes", c_uint64),
        ("syncs", c_uint64),
        ("bytes_written", c_uint64),
        ("memory", c_uint64),
    ]


class VolumeInfo(ctypes.Structure):
    """struct famsync_volume_info"""

    _fields_ = [
        ("size", c_size_t),
        ("layout", c_uint64),
        ("blocks", c_uint64),
        ("files", c_uint64),
        ("log", c_uint64),
        ("log_used", c_uint64),
        ("frames", c_uint64),
        ("readonly", c_uint64),
    ]


# Of each call what it answers, and what it takes.
CALLS = {
    "famsync_version": (c_char_p,),
    "famsync_format": (c_int, c_char_p, POINTER(Plan)),
    "famsync_open": (c_int, c_char_p, POINTER(Options), POINTER(c_void_p)),
    "famsync_close": (c_int, c_void_p),
    "famsync_files": (c_uint, c_void_p),
    "famsync_file_name": (c_char_p, c_void_p, c_uint),
    "famsync_file_length": (c_uint64, c_void_p, c_uint),
    "famsync_capacity": (c_uint64, c_void_p, c_uint),
    "famsync_frames": (c_uint, c_void_p),
    "famsync_setlength": (c_int, c_void_p, c_char_p, c_uint64),
    "famsync_read": (c_int, c_void_p, c_uint, c_uint64, c_void_p, c_size_t, POINTER(c_size_t)),
    "famsync_write": (c_int, c_void_p, c_uint, c_uint64, c_char_p, c_size_t, POINTER(c_size_t)),
    "famsync_msync": (c_int, c_void_p, POINTER(c_uint64)),
    "famsync_rollback": (c_int, c_void_p),
    "famsync_begin": (c_int, c_void_p),
    "famsync_end": (c_int, c_void_p),
    "famsync_transaction_begin": (c_int, c_void_p, POINTER(c_uint64)),
    "famsync_transaction_commit": (c_int, c_void_p, c_uint64, POINTER(c_uint64)),
    "famsync_transaction_rollback": (c_int, c_void_p, c_uint64),
    "famsync_acknowledged": (c_uint64, c_void_p),
    "famsync_strerror": (c_char_p, c_int),
    "famsync_error": (c_char_p, c_void_p),
    "famsync_stat": (c_int, c_void_p, POINTER(Stat)),
    "famsync_volume_info": (c_int, c_void_p, POINTER(VolumeInfo)),
    "famsync_backup": (c_int, c_void_p, c_int),
    "famsync_memory_open": (c_int, c_void_p, c_char_p, POINTER(c_void_p)),
    "famsync_memory_open_at": (c_int, c_void_p, c_char_p, c_void_p, POINTER(c_void_p)),
    "famsync_memory_at": (c_void_p, c_void_p),
    "famsync_memory_length": (c_size_t, c_void_p),
    "famsync_memory_dirty": (c_size_t, c_void_p),
    "famsync_memory_touch": (c_int, c_void_p, c_size_t, c_size_t),
    "famsync_memory_close": (c_int, c_void_p),
}


def _place() -> str:
    """Returns the path in FAMSYNC_LIBRARY, or else the path of a library beside this file, or else only the library's
    name, by which the system finds it."""
    named = os.environ.get("FAMSYNC_LIBRARY")
    beside = os.path.join(os.path.dirname(os.path.abspath(__file__)), NAME)
    return named or (beside if os.path.exists(beside) else NAME)


def _load() -> ctypes.CDLL:
    place = _place()
    try:
        loaded = ctypes.CDLL(place, use_errno=True)
        for name, (answer, *arguments) in CALLS.items():
            call = getattr(loaded, name)
            call.restype, call.argtypes = answer, arguments
    except (OSError, AttributeError) as error:
        how = f"FAMSYNC_LIBRARY in the environment says where {NAME} is"
        raise ImportError(f"famsync: the library can't be used: {error}; {how}", path=place) from None
    return loaded


library = _load()


def version() -> str:
    """Returns the version of the loaded library."""
    text: bytes = library.famsync_version()
    return text.decode()


def words(code: int) -> str:
    """Returns the library's description of a code."""
    text: bytes = library.famsync_strerror(code)
    return text.decode()


def why() -> str:
    """Returns the library's text about the last failed call of this thread."""
    text: bytes = library.famsync_error(None)
    return text.decode("utf-8", "replace")
