"""The calls of `dasd.h` by ctypes: the structs that they take, and the library itself, which is found and loaded here."""

from __future__ import annotations

import ctypes
import os
from pathlib import Path
from typing import Any, Dict, List, Tuple, Type

#: How many bytes of main storage have a key in common.
BLOCK = 2048

# c/interface.toml: begin
#: The number of the binary interface that these declarations are.
INTERFACE = 1

#: How many bytes a saved state has.
SAVED = 538

#: Room for the lines of any look.
TRACE_ROOM = 2048


class Handle(ctypes.Structure):
    """The handle."""

    _fields_ = [("stamp", ctypes.c_uint64), ("place", ctypes.c_void_p)]


class Wanted(ctypes.Structure):
    """What dasd_run_until is asked for."""

    _fields_ = [("units", ctypes.c_uint32), ("channel", ctypes.c_uint8), ("until", ctypes.c_uint8), ("reserved", ctypes.c_uint8 * 2)]


class Bytes(ctypes.Structure):
    """The bytes of a file, to be read."""

    _fields_ = [("at", ctypes.c_char_p), ("len", ctypes.c_size_t)]


class File(ctypes.Structure):
    """A file of a volume, to be saved: `len` bytes at `at`."""

    _fields_ = [("at", ctypes.c_void_p), ("len", ctypes.c_size_t), ("changes", ctypes.c_uint64)]


class Changed(ctypes.Structure):
    """A track of a file that was written, and where its slot lies there."""

    _fields_ = [("at", ctypes.c_size_t), ("len", ctypes.c_size_t), ("track", ctypes.c_size_t), ("next", ctypes.c_size_t)]


class Files(ctypes.Structure):
    """Files of a volume that no drive has: a handle too, of 16 bytes, for which all that is said of a `dasd` holds."""

    _fields_ = [("stamp", ctypes.c_uint64), ("place", ctypes.c_void_p)]


class Space(ctypes.Structure):
    """The bytes of a file that no drive has: `len` bytes at `at`."""

    _fields_ = [("at", ctypes.c_void_p), ("len", ctypes.c_size_t)]


class Drive(ctypes.Structure):
    """What is known of a drive without a channel program."""

    _fields_ = [
        ("model", ctypes.c_uint16),
        ("cylinders", ctypes.c_uint16),
        ("cylinder", ctypes.c_uint16),
        ("head", ctypes.c_uint16),
        ("arm", ctypes.c_uint8),
        ("sense", ctypes.c_uint8 * 6),
        ("reserved", ctypes.c_uint8),
    ]


class Ran(ctypes.Structure):
    """What came of dasd_run_on."""

    _fields_ = [
        ("units", ctypes.c_uint32),
        ("subchannel", ctypes.c_uint8),
        ("device", ctypes.c_uint8),
        ("asked", ctypes.c_uint8),
        ("reserved", ctypes.c_uint8),
    ]


class Progress(ctypes.Structure):
    """What came of dasd_run_until."""

    _fields_ = [
        ("cylinders", ctypes.c_uint64),
        ("units", ctypes.c_uint32),
        ("bytes", ctypes.c_uint32),
        ("indexes", ctypes.c_uint32),
        ("stored", ctypes.c_uint32),
        ("low", ctypes.c_uint32),
        ("high", ctypes.c_uint32),
        ("subchannel", ctypes.c_uint8),
        ("device", ctypes.c_uint8),
        ("asked", ctypes.c_uint8),
        ("stopped", ctypes.c_uint8),
        ("reserved", ctypes.c_uint8 * 4),
    ]


class Track(ctypes.Structure):
    """A track that was written and could not be saved."""

    _fields_ = [("address", ctypes.c_uint16), ("cylinder", ctypes.c_uint16), ("head", ctypes.c_uint16)]


class State(ctypes.Structure):
    """A channel, as it is shown."""

    _fields_ = [
        ("subchannel", ctypes.c_uint8),
        ("device", ctypes.c_uint8),
        ("asked", ctypes.c_uint8),
        ("drives", ctypes.c_uint8),
        ("units", ctypes.c_uint8 * 8),
        ("arms", ctypes.c_uint8 * 8),
    ]


class Program(ctypes.Structure):
    """A channel program that runs, as it is between two units."""

    _fields_ = [
        ("last", ctypes.c_uint32),
        ("next", ctypes.c_uint32),
        ("address", ctypes.c_uint32),
        ("place", ctypes.c_uint32),
        ("count", ctypes.c_uint16),
        ("left", ctypes.c_uint16),
        ("device", ctypes.c_uint8),
        ("key", ctypes.c_uint8),
        ("phase", ctypes.c_uint8),
        ("asked", ctypes.c_uint8),
        ("code", ctypes.c_uint8),
        ("flags", ctypes.c_uint8),
        ("reserved", ctypes.c_uint8 * 2),
    ]


class Registers(ctypes.Structure):
    """What a drive remembers in a program, beside its volume."""

    _fields_ = [
        ("passed", ctypes.c_uint64),
        ("credited", ctypes.c_uint64),
        ("cylinder", ctypes.c_uint16),
        ("head", ctypes.c_uint16),
        ("sense", ctypes.c_uint8 * 6),
        ("area", ctypes.c_uint8),
        ("lap", ctypes.c_uint8),
        ("mask", ctypes.c_uint8),
        ("mask_set", ctypes.c_uint8),
        ("credit", ctypes.c_uint8),
        ("reserved", ctypes.c_uint8 * 9),
    ]


class Moment(ctypes.Structure):
    """A moment."""

    _fields_ = [
        ("what", ctypes.c_uint8),
        ("channel", ctypes.c_uint8),
        ("address", ctypes.c_uint16),
        ("answer", ctypes.c_uint32),
        ("cylinder", ctypes.c_uint16),
        ("head", ctypes.c_uint16),
    ]


class Trace(ctypes.Structure):
    """A trace of one channel."""

    _fields_ = [("lines", ctypes.c_void_p), ("size", ctypes.c_size_t), ("length", ctypes.c_size_t), ("kept", ctypes.c_uint64 * 32)]


class Storage(ctypes.Structure):
    """Main storage: `len` bytes at `at`."""

    _fields_ = [("at", ctypes.c_void_p), ("len", ctypes.c_size_t)]


class Memory(ctypes.Structure):
    """Main storage: `size` bytes, and the storage key of each of its `blocks` blocks of 2,048 bytes."""

    _fields_ = [("bytes", ctypes.c_void_p), ("size", ctypes.c_size_t), ("keys", ctypes.c_void_p), ("blocks", ctypes.c_size_t)]


def _to(of: Type[ctypes.Structure]) -> Any:
    return ctypes.POINTER(of)


_U8, _U16, _U32, _U64, _SIZE, _I32 = ctypes.c_uint8, ctypes.c_uint16, ctypes.c_uint32, ctypes.c_uint64, ctypes.c_size_t, ctypes.c_int32

# The calls: what each answers, and its arguments.
_CALLS: Dict[str, Tuple[Any, List[Any]]] = {
    "dasd_show_program_sized": (_I32, [_to(Handle), _U8, _to(Program), _SIZE]),
    "dasd_show_registers_sized": (_I32, [_to(Handle), _U8, _to(Registers), _SIZE]),
    "dasd_run_until_sized": (_I32, [_to(Handle), _to(Wanted), _to(Progress), _SIZE]),
    "dasd_version": (_U32, []),
    "dasd_interface": (_U32, []),
    "dasd_new": (_I32, [_to(Handle), _U32, _U8]),
    "dasd_copy": (_I32, [_to(Handle), _to(Handle)]),
    "dasd_save": (_I32, [_to(Handle), ctypes.c_char_p, _SIZE, ctypes.POINTER(_SIZE)]),
    "dasd_restore": (_I32, [_to(Handle), ctypes.c_char_p, _SIZE]),
    "dasd_free": (_I32, [_to(Handle)]),
    "dasd_check": (_I32, [_to(Bytes), _SIZE]),
    "dasd_attach": (_I32, [_to(Handle), _U16, _to(Bytes), _SIZE]),
    "dasd_attach_new": (_I32, [_to(Handle), _U16, _U16, _U16]),
    "dasd_detach": (_I32, [_to(Handle), _U16]),
    "dasd_show_file": (_I32, [_to(Handle), _U16, _U8, _to(File)]),
    "dasd_next_changed": (_I32, [_to(Handle), _U16, _U8, _U64, _to(Changed)]),
    "dasd_files_new": (_I32, [_to(Files), ctypes.POINTER(_SIZE), _SIZE]),
    "dasd_files_show": (_I32, [_to(Files), _U8, _to(Space)]),
    "dasd_attach_files": (_I32, [_to(Handle), _U16, _to(Files)]),
    "dasd_detach_files": (_I32, [_to(Handle), _U16, _to(Files)]),
    "dasd_files_free": (_I32, [_to(Files)]),
    "dasd_show_drive": (_I32, [_to(Handle), _U16, _to(Drive)]),
    "dasd_sio": (_I32, [_to(Handle), _U16]),
    "dasd_tio": (_I32, [_to(Handle), _U16]),
    "dasd_hio": (_I32, [_to(Handle), _U16]),
    "dasd_tch": (_I32, [_to(Handle), _U16]),
    "dasd_step": (_I32, [_to(Handle), _U8, _U32, ctypes.POINTER(_U32)]),
    "dasd_run_on": (_I32, [_to(Handle), _U8, _U32, _to(Ran)]),
    "dasd_arrive": (_I32, [_to(Handle), _U16]),
    "dasd_is_pending": (_I32, [_to(Handle), _U8]),
    "dasd_interrupt": (_I32, [_to(Handle), _U8, ctypes.POINTER(_U16)]),
    "dasd_reset": (_I32, [_to(Handle), _U8, _to(Track)]),
    "dasd_show_channel": (_I32, [_to(Handle), _U8, _to(State)]),
    "dasd_trace_look": (_I32, [_to(Handle), _to(Trace), _to(Moment)]),
    "dasd_show_storage": (_I32, [_to(Handle), _to(Storage)]),
    "dasd_peek": (_I32, [_to(Handle), _U32, ctypes.c_char_p, _SIZE]),
    "dasd_poke": (_I32, [_to(Handle), _U32, ctypes.c_char_p, _SIZE]),
    "dasd_key": (_I32, [_to(Handle), _U32]),
    "dasd_set_key": (_I32, [_to(Handle), _U32, _U8]),
    "dasd_new_lent": (_I32, [_to(Handle), _U32, _U8]),
    "dasd_lent_sio": (_I32, [_to(Handle), _to(Memory), _U16]),
    "dasd_lent_tio": (_I32, [_to(Handle), _to(Memory), _U16]),
    "dasd_lent_hio": (_I32, [_to(Handle), _to(Memory), _U16]),
    "dasd_lent_step": (_I32, [_to(Handle), _to(Memory), _U8, ctypes.POINTER(_U32)]),
    "dasd_lent_run_on": (_I32, [_to(Handle), _to(Memory), _U8, _to(Ran)]),
    "dasd_lent_interrupt": (_I32, [_to(Handle), _to(Memory), _U8, ctypes.POINTER(_U16)]),
    "dasd_lent_trace_look": (_I32, [_to(Handle), _to(Memory), _to(Trace), _to(Moment)]),
    "dasd_lent_run_until_sized": (_I32, [_to(Handle), _to(Memory), _to(Wanted), _to(Progress), _SIZE]),
}
# c/interface.toml: end


def place() -> str:
    """Where the library is: what DASD_LIBRARY names, or the file beside this one, or else the name by which the loader knows it."""
    named = os.environ.get("DASD_LIBRARY")
    if named:
        return named
    name = f"libdasd.so.{INTERFACE}"
    carried = Path(__file__).resolve().parent / name
    return str(carried) if carried.exists() else name


def storage_type(size: int) -> Any:
    """The type of main storage of so many bytes."""
    return ctypes.c_uint8 * size


def _declare(library: ctypes.PyDLL, at: str, name: str) -> None:
    """Declares the types of a call of the library; an ImportError where the library has none."""
    try:
        call = getattr(library, name)
    except AttributeError:
        raise ImportError(f"{at} has no {name}: it is older than this module") from None
    call.restype, call.argtypes = _CALLS[name]


def load() -> ctypes.PyDLL:
    """The library, with its calls declared. An ImportError says where it was looked for, or that it has another interface or too few calls.

    A call keeps the interpreter's lock: none lasts long, and so no other thread of Python stores into main storage while one is made."""
    at = place()
    try:
        library = ctypes.PyDLL(at)
    except OSError as why:
        raise ImportError(f"libdasd is not to be had ({why}): DASD_LIBRARY names its file, or the system's loader has to know it") from why
    for name in _CALLS:
        _declare(library, at, name)
    found = library.dasd_interface()
    if found != INTERFACE:
        raise ImportError(f"{at} has interface {found}, and this module is for {INTERFACE}")
    return library
