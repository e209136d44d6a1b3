"""Statuses, and the exceptions that they become."""

from __future__ import annotations

import ctypes
import enum

from . import _native


def _of(letter: str, number: int) -> int:
    return ord(letter) << 8 | number


class Status(enum.IntEnum):
    """Why a call refused, by the names of nrbpf.h. docs/REFUSALS.md says when each comes and what to do."""

    BAD_LINE = _of("C", 1)
    BAD_DIGITS = _of("C", 2)
    FILE_NOT_DECODED = _of("C", 3)
    FILE_NOT_ACCEPTED = _of("C", 4)
    TOO_MUCH = _of("C", 5)
    NO_MEMORY_TO_LOAD = _of("C", 6)
    NO_MEMORY_FOR_DUMP = _of("E", 0)
    BAD_DUMP_LINE = _of("E", 1)
    BAD_DUMP_MAP = _of("E", 2)
    BAD_DUMP_KEY = _of("E", 3)
    BAD_DUMP_VALUE = _of("E", 4)
    BAD_DUMP_ORDER = _of("E", 5)
    BAD_DUMP_ZEROS = _of("E", 6)
    DUMP_TOO_MANY_KEYS = _of("E", 7)
    DUMP_BAD_PROGRAM = _of("E", 8)
    DUMP_TOO_MANY_PROGRAMS = _of("E", 9)
    OUT_OF_LIMITS = _of("O", 1)
    NO_MEMORY = _of("O", 2)
    OTHER_STATE = _of("O", 3)
    UNKNOWN_PROGRAM = _of("S", 1)
    ARGUMENT_LENGTH = _of("S", 2)
    OTHER_MODE = _of("S", 3)
    FULL = _of("S", 4)
    ATTACHED = _of("S", 5)
    TOO_LARGE = _of("S", 6)
    NOT_DECODED = _of("S", 7)
    NOT_ACCEPTED = _of("S", 8)
    UNKNOWN_MAP = _of("S", 9)
    UNKNOWN_PLACE = _of("S", 10)
    KEY_LENGTH = _of("S", 11)
    VALUE_LENGTH = _of("S", 12)
    NO_SESSION = _of("H", 1)
    DETACHED = _of("H", 2)
    UNANSWERED = _of("H", 3)
    NOT_UTF8 = _of("H", 4)
    BAD_CALL = _of("H", 5)
    OTHER_STORE = _of("H", 6)
    NULL_POINTER = _of("H", 7)
    OTHER_VERSION = _of("H", 8)
    OTHER_SIZES = _of("H", 9)
    STOPPED = _of("H", 10)
    NOTHING_POSTED = _of("H", 11)

    @property
    def text(self) -> str:
        """What it means, in a line that begins with its letter and number."""
        return str(_native.library.nrbpf_status_text(self).decode())


REPLY_NO_ROOM = 2**64 - 7
"""By custom a program replies it if a map has no room for its key. (An install without a place raises NoPlaceError.)"""
REPLY_INVALID = 2**64 - 22
"""The call found no program of its number, mode and argument length at its index."""


NO_PROGRAM = 2**16 - 1
"""The number of no program. In a list it is passed for those of more than 16 bits, and the library says which it is."""


class Pending(enum.Enum):
    """What a call with `try_` in its name, or `poll`, answers where it has no answer yet."""

    BUSY = 1
    """Another session was in the way, and nothing is asked: call again, or let it be."""
    POSTED = 2
    """The update is posted and not yet answered: `poll` goes on with it, or `wait`."""


def _code(status: int) -> str:
    return f"{chr(status >> 8)}{status & 255}" if status else ""


class Error(Exception):
    """A refusal. Its subclass goes by its letter; its text is that of the library.

    status: why, one of `Status`
    code: the same as letter and number, "C4"
    inner: what is wrong with a program, "V18", or ""
    line: of the manifest or the dump, from 1, or 0
    slot: of the program that `inner` is of; of `read_each` and `update_each` the call's number
    """

    def __init__(self, status: int, inner: int = 0, line: int = 0, slot: int = 0) -> None:
        self.status: int = status
        if status in _KNOWN:
            self.status = Status(status)
        self.code, self.inner, self.line, self.slot = _code(status), _code(inner), line, slot
        room = ctypes.create_string_buffer(512)
        _native.library.nrbpf_error_text(_native.Fault(status, inner, line, slot), room, len(room))
        super().__init__(room.value.decode())
        self._given: tuple[int, ...] = status, inner, line, slot

    def __reduce__(self) -> tuple[object, ...]:
        return type(self), self._given, self.__dict__  # a copy, by what the first one was made of


class ManifestError(Error):
    """C: a manifest is refused, or one of its programs."""


class DumpError(Error):
    """E: a state as text is refused, or there is no memory for it."""


class OpeningError(Error):
    """O: a store is not opened."""


class CallError(Error):
    """S: a call is refused."""


class HostError(Error):
    """H: the host made a mistake."""


class NoPlaceError(Error):
    """An install found no free place. It is in the history, at `point`, and did nothing. Its status is 0."""

    def __init__(self, point: int) -> None:
        super().__init__(0)
        self._given = (point,)
        self.args = ("there is no free place for the program",)
        self.point = point


_KNOWN = frozenset(int(it) for it in Status)
_CLASSES: dict[str, type[Error]] = {
    "C": ManifestError,
    "E": DumpError,
    "O": OpeningError,
    "S": CallError,
    "H": HostError,
}


def error_of(status: int, fault: _native.Fault | None = None) -> Error:
    """The exception for a status, and for what the library says of it."""
    told = (fault.inner, fault.line, fault.slot) if fault and fault.status else (0, 0, 0)
    return _CLASSES.get(chr(status >> 8), Error)(status, *told)


def within(number: int, bits: int, status: int) -> int:
    """A number that has so many bits; of another one the library would see the low bits alone."""
    if number >> bits:
        raise error_of(status)
    return number


def check(status: int, fault: _native.Fault | None = None) -> None:
    if status:
        raise error_of(status, fault)


def pending(status: int, fault: _native.Fault | None = None) -> Pending | None:
    """Whether a call that waits for nobody has no answer yet."""
    if status == Pending.BUSY.value:
        return Pending.BUSY
    if status == Pending.POSTED.value:
        return Pending.POSTED
    check(status, fault)
    return None
