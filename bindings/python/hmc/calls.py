"""The calls of the library, by ctypes."""

from __future__ import annotations

import ctypes
import enum
import os
from collections.abc import Callable
from dataclasses import dataclass
from pathlib import Path

HERE = Path(__file__).resolve().parent
# The library in the package, or where `make -C bindings` leaves it.
PLACES = (HERE / "libhmc.so", HERE.parent.parent / "build" / "shared" / "libhmc.so")
VERSION = 1

Bytes16 = ctypes.c_uint8 * 16
Bytes256 = ctypes.c_uint8 * 256


class Status(enum.IntEnum):
    """What calls return."""

    OK = 0
    MEMORY = 1
    BAD = 6
    PASSED = 7
    NONE = 8
    CLOSED = 9
    WAITS = 10
    OVER = 11
    NO_HOST = 12
    NO_CUBE = 13
    FINISHED = 14
    FULL = 15
    BAD_LENGTH = 16
    BAD_COMMAND = 17
    BAD_RESERVED = 18
    BAD_CRC = 19
    UNLAWFUL = 20


@dataclass(frozen=True)
class Fault:
    """The first fault of a text: the section (toml, top, cube, net, link, script or schedule), the
    number of a cube or link, from 0, or of a line, from 1, and what is wrong, in a word."""

    section: str
    line: int
    kind: str

    def __str__(self) -> str:
        return f"bad {self.section} {self.line} {self.kind}"


class Error(Exception):
    """A call that did nothing, with the status that says why. Where a text is at fault it has its
    first fault."""

    def __init__(self, call: str, status: int, fault: Fault | None = None, said: str = "") -> None:
        self.status = Status(status)
        self.fault = fault
        said = said or str(fault or self.status.name.lower().replace("_", " "))
        super().__init__(f"{call}: {said}")


class Handle(ctypes.Structure):
    """A handle; zeros are a closed one."""

    _fields_ = [("at", ctypes.c_void_p)]


class RawUnit(ctypes.Structure):
    """A logic unit, as hmc.h has it."""

    _fields_ = [("kind", ctypes.c_uint8), ("cube", ctypes.c_uint8), ("code", ctypes.c_uint8)]


class RawFault(ctypes.Structure):
    """The first fault of a text, as hmc.h has it."""

    line: int
    section: int
    word: bytes

    _fields_ = [
        ("line", ctypes.c_uint32),
        ("section", ctypes.c_uint8),
        ("word", ctypes.c_char * 16),
    ]


class RawEntry(ctypes.Structure):
    """The latest entry, as hmc.h has it."""

    address: int
    value: int
    length: int
    returned_length: int
    tag: int
    kind: int
    a: int
    b: int
    c: int
    host: int
    command: int
    cube: int
    answer: int
    cause: int
    step: int
    what: int
    outcome: int
    flag: bool
    poisoned: bool
    flit: ctypes.Array[ctypes.c_uint8]
    payload: ctypes.Array[ctypes.c_uint8]
    returned: ctypes.Array[ctypes.c_uint8]

    _fields_ = [
        ("address", ctypes.c_uint64),
        ("value", ctypes.c_uint32),
        ("length", ctypes.c_uint32),
        ("returned_length", ctypes.c_uint32),
        ("tag", ctypes.c_uint16),
        ("kind", ctypes.c_uint8),
        ("a", ctypes.c_uint8),
        ("b", ctypes.c_uint8),
        ("c", ctypes.c_uint8),
        ("host", ctypes.c_uint8),
        ("command", ctypes.c_uint8),
        ("cube", ctypes.c_uint8),
        ("answer", ctypes.c_uint8),
        ("cause", ctypes.c_uint8),
        ("step", ctypes.c_uint8),
        ("what", ctypes.c_uint8),
        ("outcome", ctypes.c_uint8),
        ("flag", ctypes.c_bool),
        ("poisoned", ctypes.c_bool),
        ("flit", Bytes16),
        ("payload", Bytes256),
        ("returned", Bytes256),
    ]


_HANDLE = ctypes.POINTER(Handle)
_ENTRY = ctypes.POINTER(RawEntry)
_SIZE = ctypes.c_size_t
_BYTE = ctypes.c_uint8
_BOOL = ctypes.c_bool
_ID = ctypes.c_uint64
_BYTES = ctypes.c_char_p
_DRIVER = ctypes.c_void_p

# Each call: what it returns, and what it takes.
_REQUEST = (_BYTE, _BYTE, ctypes.c_uint64, _BYTES, _SIZE)
_STEP = (_BYTE, _BYTE, _BYTE, _BYTE, _BYTES)
_TEXT = (_BYTES, _SIZE)
_UNITS = (ctypes.POINTER(RawUnit), _SIZE)
_ROOM = (_BYTES, _SIZE, ctypes.POINTER(_SIZE))
_NUMBER = ctypes.POINTER(ctypes.c_uint32)
_FAULT = ctypes.POINTER(RawFault)
CALLS = {
    "hmc_open": (_BYTE, (*_TEXT, _HANDLE)),
    "hmc_open_with": (_BYTE, (*_TEXT, *_UNITS, _HANDLE)),
    "hmc_open_taped": (_BYTE, (*_TEXT, *_UNITS, _HANDLE)),
    "hmc_fault": (_BYTE, (*_TEXT, _FAULT)),
    "hmc_ask": (_BYTE, (_HANDLE, *_TEXT)),
    "hmc_ask_fault": (_BYTE, (_HANDLE, *_TEXT, _FAULT)),
    "hmc_lay": (_BYTE, (_HANDLE, *_TEXT)),
    "hmc_lay_fault": (_BYTE, (_HANDLE, *_TEXT, _FAULT)),
    "hmc_run": (_BYTE, (_HANDLE, ctypes.c_uint32, ctypes.c_uint32, _NUMBER)),
    "hmc_tape_script": (_BYTE, (_HANDLE, *_ROOM)),
    "hmc_tape_schedule": (_BYTE, (_HANDLE, *_ROOM)),
    "hmc_run_case": (_BYTE, (*_TEXT, *_UNITS, *_ROOM)),
    "hmc_check": (_BYTE, (*_TEXT, *_TEXT, *_UNITS, _NUMBER)),
    "hmc_block": (_BYTE, (_HANDLE, _BYTE, ctypes.c_uint64, _BYTES)),
    "hmc_close": (None, (_HANDLE,)),
    "hmc_request": (_BYTE, (_HANDLE, _BYTE, _BOOL, _BOOL, *_REQUEST)),
    "hmc_finish": (_BYTE, (_HANDLE, _BYTE)),
    "hmc_step": (_BYTE, (_HANDLE, *_STEP)),
    "hmc_entry": (_BYTE, (_HANDLE, _ENTRY)),
    "hmc_line": (_BYTE, (_HANDLE, *_ROOM)),
    "hmc_crc": (ctypes.c_uint32, _TEXT),
    "hmc_version": (ctypes.c_uint32, ()),
    "hmc_driver_open": (_DRIVER, (*_TEXT, ctypes.POINTER(_BYTE))),
    "hmc_driver_open_taped": (_DRIVER, (*_TEXT, ctypes.POINTER(_BYTE))),
    "hmc_driver_save": (_BYTE, (_DRIVER, _BYTES)),
    "hmc_driver_close": (None, (_DRIVER,)),
    "hmc_driver_session": (_HANDLE, (_DRIVER,)),
    "hmc_driver_hosts": (_BYTE, (_DRIVER,)),
    "hmc_driver_steps_of_round": (ctypes.c_uint32, (_DRIVER,)),
    "hmc_driver_waiting": (ctypes.c_uint64, (_DRIVER,)),
    "hmc_driver_request": (_BYTE, (_DRIVER, _BYTE, *_REQUEST, _ID)),
    "hmc_driver_go": (_BYTE, (_DRIVER, ctypes.POINTER(_ID), _ENTRY)),
}


def _load() -> ctypes.CDLL:
    """The library, from the file that HMC_LIBRARY names, or from its places."""
    named = os.environ.get("HMC_LIBRARY")
    path = Path(named) if named else next((it for it in PLACES if it.is_file()), PLACES[-1])
    if not path.is_file():
        raise ImportError(f"there is no {path}: run make -C bindings first")
    loaded = ctypes.CDLL(str(path), use_errno=True)
    for name, (returned, taken) in CALLS.items():
        call = getattr(loaded, name)
        call.restype, call.argtypes = returned, taken
    if loaded.hmc_version() != VERSION:
        raise ImportError(f"{path} has another version of the calls than {VERSION}")
    return loaded


library = _load()


def check_number(call: str, number: int, bits: int) -> int:
    """The number, which fits in so many bits; ctypes would cut it."""
    if not 0 <= number < 1 << bits:
        raise Error(f"{call} {number}", Status.BAD)
    return number


SECTIONS = ("toml", "top", "cube", "net", "link", "script", "schedule")


def fault_of(find: Callable[[RawFault], int]) -> Fault | None:
    """The first fault of a text, by the call that shows it; None where it has none."""
    raw = RawFault()
    if find(raw) != Status.OK:
        return None
    return Fault(SECTIONS[raw.section], raw.line, raw.word.decode())


def refuse_case(call: str, status: int, text: bytes) -> Error:
    """Why a call refused a case."""

    def find(raw: RawFault) -> int:
        found: int = library.hmc_fault(text, len(text), raw)
        return found

    return Error(call, status, fault_of(find) if status == Status.BAD else None)


def crc(data: bytes) -> int:
    """The check of a packet: the CRC of its bytes (docs/crc.md)."""
    checked: int = library.hmc_crc(data, len(data))
    return checked
