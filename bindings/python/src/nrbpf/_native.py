"""The functions and structs of nrbpf.h, version 2.7, by ctypes, which lets the interpreter's lock go while a call is
made."""

from __future__ import annotations

import ctypes as c
import os
import platform
import sys

VERSION = 2007


class File(c.Structure):
    _fields_ = (("name", c.c_char_p), ("name_len", c.c_size_t), ("text", c.c_char_p), ("text_len", c.c_size_t))


class Limits(c.Structure):
    _fields_ = (
        *((name, c.c_uint32) for name in ("key", "value")),
        *((name, c.c_uint64) for name in ("entries", "bytes")),
        ("argument", c.c_uint32),
    )


class Config(c.Structure):
    _fields_ = (
        *((name, c.c_uint32) for name in ("version", "nodes", "slots", "window", "limit", "spare")),
        ("limits", Limits),
        ("long_bytes", c.c_uint32),
    )


class Fault(c.Structure):
    _fields_ = tuple((name, c.c_uint32) for name in ("status", "inner", "line", "slot"))


class Answered(c.Structure):
    _fields_ = (("point", c.c_uint64), ("reply", c.c_uint64))


class FoundThere(c.Structure):
    _fields_ = (("point", c.c_uint64), ("is_there", c.c_uint32))


class Scanned(c.Structure):
    _fields_ = (("point", c.c_uint64), ("count", c.c_uint32), ("next", c.c_uint32))


class Asked(c.Structure):
    _fields_ = (("argument", c.c_char_p), ("len", c.c_size_t), ("program", c.c_uint16))


class Outcome(c.Structure):
    _fields_ = (("point", c.c_uint64), ("reply", c.c_uint64), ("status", c.c_uint32))


class Confined(c.Structure):
    _fields_ = (
        ("maps", c.c_uint16),
        ("mode", c.c_uint32),
        ("argument_len", c.c_uint32),
        ("bytes", c.c_char_p),
        ("len", c.c_size_t),
    )


class MapFacts(c.Structure):
    _fields_ = (
        *((name, c.c_uint64) for name in ("point", "keys", "entries")),
        *((name, c.c_uint32) for name in ("kind", "key_len", "value_len")),
    )


class ProgramFacts(c.Structure):
    _fields_ = (
        ("point", c.c_uint64),
        *((name, c.c_uint32) for name in ("is_place", "is_there", "mode", "argument_len", "slots")),
        ("maps", c.c_uint16),
        ("name", c.c_char * 34),
    )


class StoreFacts(c.Structure):
    _fields_ = tuple(
        (name, c.c_uint32)
        for name in ("nodes", "slots", "window", "limit", "spare", "maps", "programs", "long_bytes")
    )


class Counts(c.Structure):
    _fields_ = (
        *((name, c.c_uint64) for name in ("completed", "appended", "kept", "tail", "lag")),
        *((name, c.c_uint64) for name in ("updates", "waits", "batches", "batched", "largest")),
        ("node", c.c_uint32),
    )


Writer = c.CFUNCTYPE(c.c_int, c.c_void_p, c.POINTER(c.c_char), c.c_size_t)

_AT, _OUT, _SIZE, _TEXT = c.c_void_p, c.POINTER(c.c_void_p), c.c_size_t, c.c_char_p
_WHY, _ANSWER, _POINT = c.POINTER(Fault), c.POINTER(Answered), c.POINTER(c.c_uint64)
_SOURCES = [c.POINTER(Config), _TEXT, _SIZE, c.POINTER(File), _SIZE]
_RUN = [_AT, c.c_uint16, _TEXT, _SIZE, _ANSWER]
_INSTALL = [_AT, c.c_uint32, c.c_uint32, _TEXT, _SIZE, _ANSWER, _WHY]
_WITHIN = [_AT, c.POINTER(Confined), _ANSWER, _WHY]
_GET = [_AT, c.c_uint32, _TEXT, _SIZE, c.c_void_p, _SIZE, c.POINTER(FoundThere)]
_SCAN = [_AT, c.c_uint32, c.c_uint32, c.c_void_p, _SIZE, c.c_void_p, _SIZE, c.POINTER(Scanned)]
_EACH = [_AT, c.POINTER(Asked), _SIZE, _POINT, _POINT, _WHY]
_LIST = [_AT, c.POINTER(Asked), _SIZE, c.POINTER(Outcome), _WHY]

# What each function takes. Those with a twin that waits for nobody stand in the second table.
_TAKES = {
    "version": [],
    "status_text": [c.c_uint32],
    "config_init": [c.POINTER(Config), c.c_uint32, c.c_uint32, c.c_uint32],
    "error_text": [_WHY, _TEXT, _SIZE],
    "open": [*_SOURCES, _OUT, _WHY],
    "open_on": [*_SOURCES, _AT, _OUT, _WHY],
    "close": [_AT],
    "close_into": [_AT, _OUT],
    "program_number": [_AT, _TEXT, _SIZE, c.POINTER(c.c_uint16)],
    "attach": [_AT, c.c_uint32, _OUT],
    "detach": [_AT],
    "poll": [_AT, _ANSWER],
    "attach_lane": [_AT, c.c_uint32, c.c_uint32, _OUT],
    "detach_lane": [_AT],
    "poll_each": [_AT, c.POINTER(Outcome)],
    "store_info": [_AT, c.POINTER(StoreFacts), _SIZE],
    "state_new": [_AT, _OUT],
    "state_dump": [_AT, Writer, _AT],
    "state_load": [*_SOURCES, _TEXT, _SIZE, _OUT, _WHY],
    "state_free": [_AT],
}
_TWINS = {
    "update": _RUN,
    "read": _RUN,
    "install": _INSTALL,
    "install_within": _WITHIN,
    "get": _GET,
    "scan": _SCAN,
    "read_each": _EACH,
    "update_each": _LIST,
    "map_info": [_AT, c.c_uint32, c.POINTER(MapFacts), _SIZE],
    "program_info": [_AT, c.c_uint16, c.POINTER(ProgramFacts), _SIZE],
    "snapshot": [_AT, _AT, _POINT],
    "stats": [_AT, c.POINTER(Counts), _SIZE],
}


def _to_do() -> str:
    """What to do where no library can be loaded."""
    if (sys.platform, platform.machine()) != ("linux", "x86_64"):
        return f"the library is for Linux on x86-64, and this is {sys.platform} on {platform.machine()}"
    return "install libnrbpf, or let NRBPF_LIBRARY name its shared library"


def _loaded(path: str) -> c.CDLL:
    try:
        library = c.CDLL(path)
    except OSError as why:
        raise ImportError(f"{why}: {_to_do()}") from why
    twins = {f"{prefix}{name}": takes for name, takes in _TWINS.items() for prefix in ("", "try_")}
    library.nrbpf_version.restype = c.c_uint32
    version = library.nrbpf_version()
    if version // 1000 != VERSION // 1000 or version < VERSION:
        raise ImportError(f"{path} has version {version}, and this package wants {VERSION}")
    for name, takes in {**_TAKES, **twins}.items():
        function = getattr(library, f"nrbpf_{name}")
        function.argtypes, function.restype = takes, c.c_uint32
    library.nrbpf_status_text.restype = c.c_char_p
    library.nrbpf_error_text.restype = c.c_size_t
    library.nrbpf_state_free.restype = None
    return library


_NAME = f"libnrbpf.so.{VERSION // 1000}"
_OWN = os.path.join(os.path.dirname(__file__), _NAME)

# The library that NRBPF_LIBRARY names; else the one in this package, as some wheels have it; else the installed one.
library = _loaded(os.environ.get("NRBPF_LIBRARY") or (_OWN if os.path.exists(_OWN) else _NAME))
