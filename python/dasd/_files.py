"""Files of a volume that no drive has."""

from __future__ import annotations

import ctypes
import operator
from typing import Callable, NoReturn

from . import _library
from ._handle import calls, done
from ._locked import Locked

_MOST = ctypes.c_size_t(-1).value


class HeldFiles(Locked):
    """Files of a volume that no drive has. The library takes the memory for their bytes, `put` fills it piece by piece, `attach_files` has a
    drive take them over, and `detach_files` gives them back: no file is ever there twice.

    They are freed when nothing refers to them. Once a drive took them over every method raises NOTHING_HELD. Any thread may call.
    """

    def __init__(self, *lengths: int) -> None:
        """Files of so many bytes each, one to eight, which are zero. NO_FILES, TOO_MANY_FILES, NO_MEMORY."""
        super().__init__()
        self._begin()
        sizes = [operator.index(it) for it in lengths]
        if any(it < 0 for it in sizes):
            raise ValueError("a length is below 0")
        given = (ctypes.c_size_t * max(len(sizes), 1))(*(min(it, _MOST) for it in sizes))
        done(calls.dasd_files_new(self._at, given, len(sizes)))

    @classmethod
    def none(cls) -> HeldFiles:
        """None, for a call that gives some."""
        files = cls.__new__(cls)
        Locked.__init__(files)
        files._begin()
        return files

    def _begin(self) -> None:
        self._held = _library.Files()
        self._at = ctypes.byref(self._held)
        # another module may be gone before this object, at the end of the interpreter
        self._free = calls.dasd_files_free

    def __del__(self) -> None:
        if getattr(self, "_free", None) is not None:
            self._free(self._at)

    def __reduce_ex__(self, protocol: object) -> NoReturn:
        raise TypeError("HeldFiles are not copied or pickled")

    def lend(self, call: Callable[[object], int]) -> int:
        """Makes a call with the handle, alone of all threads."""
        with self._lock:
            if self._is_copying:
                raise RuntimeError("a call with files while this thread copies bytes of them")
            return call(self._at)

    def _in_place(self, at: int, count: int, place: int, copy: Callable[[int], bytes]) -> bytes:
        """Copies so many bytes of a file, or to them; `copy` is given where they lie."""
        shown, number = _library.Space(), operator.index(place)
        with self._lock:
            self.lend(lambda handle: done(calls.dasd_files_show(handle, number if 0 <= number <= 255 else 255, ctypes.byref(shown))))
            if not 0 <= at <= shown.len - count:
                raise ValueError(f"{count} bytes from {at} on are not in a file of {shown.len}")
            self._is_copying = True
            try:
                return copy((shown.at or 0) + at)
            finally:
                self._is_copying = False

    def put(self, at: int, data: bytes, place: int = 0) -> None:
        """Puts bytes over those of a file, 0 for the first, from a place in it on. NO_FILE; a ValueError where they pass its end."""
        whole = bytes(data)

        def copy(to: int) -> bytes:
            ctypes.memmove(to, whole, len(whole))
            return whole

        self._in_place(operator.index(at), len(whole), place, copy)

    def get(self, at: int, count: int, place: int = 0) -> bytes:
        """A copy of so many bytes of a file. NO_FILE; a ValueError where they pass its end."""
        many = operator.index(count)
        if many < 0:
            raise ValueError(f"{many} bytes")
        return self._in_place(operator.index(at), many, place, lambda to: ctypes.string_at(to, many))
