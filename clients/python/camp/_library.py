"""Finds and loads libcamp.so, and declares its exports as camp.h does."""

from __future__ import annotations

import ctypes
import os
from typing import Any, List

NAME = "libcamp.so"
# The version of camp that this package is of, and its library has to be of.
VERSION = "0.1.0"
# Codes of camp.h. Its others come only of handles that this package does not use, and of limits that it has checked.
DONE, NOT_OPEN, MEMORY = 0, 1, 2


class Handle(ctypes.Structure):
    """`camp` and `camp_view` of camp.h, which have the same members. Zeros are a closed handle."""
    _fields_ = [("is_open", ctypes.c_bool), ("at", ctypes.c_void_p)]


def _candidates() -> List[str]:
    """The paths that are tried, in order; the bare name is looked up by the system's loader."""
    folder = os.environ.get("CAMP_LIB_DIR")
    if folder:
        return [os.path.join(folder, NAME)]
    here = os.path.dirname(os.path.abspath(__file__))
    built = os.path.normpath(os.path.join(here, "..", "..", "..", "out", "clients"))
    return [os.path.join(here, NAME), os.path.join(built, NAME), NAME]


def _open() -> ctypes.CDLL:
    candidates = _candidates()
    for path in candidates:
        if os.path.exists(path):
            try:
                return ctypes.CDLL(path)
            except OSError as error:
                raise ImportError("{} can't be loaded: {}".format(path, error)) from error
    if candidates[-1] == NAME:
        try:
            return ctypes.CDLL(NAME)
        except OSError:
            pass
    folders = " or ".join(os.path.dirname(path) for path in candidates if path != NAME)
    raise ImportError("{} is not in {}: run clients/build at the top of camp's repository, or set CAMP_LIB_DIR to the folder "
                      "that has it".format(NAME, folders))


def _declare(library: Any, name: str, arguments: List[Any], result: Any) -> None:
    try:
        call = getattr(library, name)
    except AttributeError:
        raise ImportError("{} has no {}: it is of another version of camp; run clients/build, or set CAMP_LIB_DIR"
                          .format(library._name, name)) from None
    call.argtypes, call.restype = arguments, result


def _declare_members(library: Any, handle: Any) -> None:
    number, size, text = ctypes.c_uint64, ctypes.c_size_t, ctypes.c_char_p
    asked = {"open": [number, number, text, size], "take_seat": [number, number], "ask": [number, text, size, number], "want": [],
             "found": [size, text, size], "restore": [size, text, size], "refused": [], "ended": [size], "answer": [], "call": [size], "look": [handle]}
    told = {"number": ([], number), "text_length": ([], size), "text": ([text, size], size), "index": ([], size), "accepted": ([], number), "close": ([], None)}
    for name, arguments in asked.items():
        _declare(library, "camp_member_" + name, [handle, *arguments], ctypes.c_int32)
    for name, (arguments, result) in told.items():
        _declare(library, "camp_member_" + name, [handle, *arguments], result)


def _load() -> ctypes.CDLL:
    library = _open()
    handle = ctypes.POINTER(Handle)
    for kind in ("camp", "camp_view"):
        _declare(library, kind + "_ask", [handle, ctypes.c_char_p, ctypes.c_size_t], ctypes.c_int32)
        _declare(library, kind + "_answer_bytes", [handle, ctypes.POINTER(ctypes.c_size_t)], ctypes.c_void_p)
        _declare(library, kind + "_close", [handle], None)
    for name in ("camp_look", "camp_view_again"):
        _declare(library, name, [handle, handle], ctypes.c_int32)
    _declare(library, "camp_version", [], ctypes.c_char_p)
    found = library.camp_version().decode("ascii", "replace")
    if found != VERSION:
        raise ImportError("{} is camp {}, and this package is of camp {}: run clients/build, or install the wheel of the same release"
                          .format(library._name, found, VERSION))
    _declare(library, "camp_executed", [handle], ctypes.c_size_t)
    _declare(library, "camp_open", [handle], ctypes.c_int32)
    _declare_members(library, handle)
    _declare(library, "camp_open_with", [handle, ctypes.c_size_t, ctypes.c_size_t], ctypes.c_int32)
    return library


class _Library:
    """The exports of libcamp.so, which is loaded before the first of them is used: `python3 -m camp shell` uses none."""

    def __getattr__(self, name: str) -> Any:
        if "_loaded" not in self.__dict__:
            self._loaded = _load()
        found = self.__dict__[name] = getattr(self._loaded, name)
        return found


LIBRARY = _Library()


def require_library() -> None:
    """Loads the library now, and not when the first repository is opened: a program that works with none says so at its start.
    The ImportError says what to run."""
    LIBRARY.camp_open


def library_path() -> str:
    """The path of the library that is loaded; its bare name where the system's loader has found it."""
    require_library()
    return LIBRARY._loaded._name
