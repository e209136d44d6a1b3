"""Manifests and their program files, and the sizes of a store."""

from __future__ import annotations

import ctypes
import os
from collections.abc import Mapping
from pathlib import Path
from typing import NamedTuple

from . import _native

Buffer = bytes | bytearray | memoryview


def as_bytes(given: Buffer) -> bytes:
    return given if type(given) is bytes else bytes(memoryview(given))


class Manifest:
    """Which maps a store has and which programs it offers: a text (docs/FORMATS.md), and the program files that it
    names."""

    def __init__(self, text: str | bytes, files: Mapping[str, str | bytes]) -> None:
        self.text = text.encode() if isinstance(text, str) else bytes(text)
        self.files = {name: text.encode() if isinstance(text, str) else bytes(text) for name, text in files.items()}

    @classmethod
    def read(cls, path: str | os.PathLike[str], folder: str | os.PathLike[str] = ".") -> Manifest:
        """Reads a manifest and the files that it names, all by paths from the folder. OSError if one can't be read."""
        text = Path(folder, path).read_bytes()
        lines = (line.split(b" ") for line in text.split(b"\n"))
        names = {os.fsdecode(words[4]) for words in lines if words[0] == b"program" and len(words) == 5}
        return cls(text, {name: Path(folder, name).read_bytes() for name in sorted(names)})

    def native(self) -> tuple[bytes, int, ctypes.Array[_native.File], int]:
        """The manifest as the library takes it."""
        named = [(name.encode(), text) for name, text in self.files.items()]
        files = (_native.File * len(named))(*[_native.File(name, len(name), text, len(text)) for name, text in named])
        return self.text, len(self.text), files, len(named)


class Limits(NamedTuple):
    """How large the maps of a manifest and the arguments of its programs may be: the most bytes of a key and of a
    value, entries of a map, bytes of all maps, and bytes of an argument. A host that loads others' manifests may make
    them narrower."""

    key: int = 64
    value: int = 256
    entries: int = 65_536
    bytes: int = 16_777_216
    argument: int = 64


STANDARD = Limits()

LARGE = Limits(value=16_384, entries=1 << 31, bytes=1 << 40, argument=16_384)


class Sizes(NamedTuple):
    """The sizes of a store: its nodes, the sessions of each, the updates that the log keeps, those that its history may
    have (0: no end), the programs that may be installed later, how large maps and arguments may be, and the most bytes
    of an installed program, and of its argument, if that is more than 192 and 64."""

    nodes: int = 1
    slots: int = 1
    window: int = 4096
    limit: int = 0
    spare: int = 0
    limits: Limits = STANDARD
    long_bytes: int = 0

    def native(self) -> _native.Config:
        for name in ("nodes", "slots", "window", "limit", "spare", "long_bytes"):
            if not 0 <= getattr(self, name) < 1 << 32:
                raise ValueError(f"{name} is a number from 0 to 2^32 - 1")
        config = _native.Config()
        _native.library.nrbpf_config_init(config, _native.VERSION, self.nodes, self.slots)
        config.window, config.limit, config.spare = self.window, self.limit, self.spare
        config.long_bytes = self.long_bytes
        for name, number in self.limits._asdict().items():
            if not 0 < number < 1 << (64 if name in ("entries", "bytes") else 32):
                raise ValueError(f"{name} is a number from 1 on, of as many bits as it has")
            setattr(config.limits, name, number)
        return config


ONE_SESSION = Sizes()
