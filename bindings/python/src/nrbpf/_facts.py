"""What a store says of itself: of its maps, its programs, its sizes, and what it has done."""

from __future__ import annotations

import enum
from typing import Literal, NamedTuple

from . import _native


class Mode(enum.IntEnum):
    """What a program may do."""

    UPDATE = 0
    READ = 1


class MapShape(NamedTuple):
    """A map of a store: its kind, the bytes of a key and of a value, and how many entries it has room for."""

    kind: Literal["array", "hash"]
    key: int
    value: int
    entries: int


class MapInfo(NamedTuple):
    """How many updates the map had seen, its shape, and how many keys it has."""

    point: int
    shape: MapShape
    keys: int

    @classmethod
    def of(cls, told: _native.MapFacts) -> MapInfo:
        kind: Literal["array", "hash"] = "hash" if told.kind else "array"
        return cls(told.point, MapShape(kind, told.key_len, told.value_len, told.entries), told.keys)


class ProgramFacts(NamedTuple):
    """The mode of a program, the bytes of its argument, its slots, and the numbers of the maps that it names. It may
    change these in the mode UPDATE, and reads and changes no others."""

    mode: Mode
    argument_len: int
    slots: int
    maps: frozenset[int]


class ProgramInfo(NamedTuple):
    """How many updates were seen, whether the number is that of a spare place, the program's name in the manifest, and
    its facts. An installed program has no name, and a place at which nothing is installed has no facts."""

    point: int
    is_place: bool
    name: str | None
    facts: ProgramFacts | None

    @classmethod
    def of(cls, told: _native.ProgramFacts) -> ProgramInfo:
        maps = frozenset(map for map in range(16) if told.maps >> map & 1)
        facts = ProgramFacts(Mode(told.mode), told.argument_len, told.slots, maps)
        return cls(told.point, bool(told.is_place), told.name.decode() or None, facts if told.is_there else None)


class StoreInfo(NamedTuple):
    """The sizes of a store, how many maps it has, and how many programs its manifest has. The numbers of the spare
    places come after theirs. Last, the most bytes of an installed program, and of its argument, if that is more than
    192 and 64."""

    nodes: int
    slots: int
    window: int
    limit: int
    spare: int
    maps: int
    programs: int
    long_bytes: int


class Counts(NamedTuple):
    """What a store has done: how many updates are completed, how many the history has, and how many of these the log
    keeps. How many updates the maps of the session's node have seen, and how many completed ones they have still to
    see. How many updates and installs the session was asked for, and how many of its calls waited for another session.
    How many batches of several updates it combined, how many updates these had, and how many the largest had; and its
    node."""

    completed: int
    appended: int
    kept: int
    tail: int
    lag: int
    updates: int
    waits: int
    batches: int
    batched: int
    largest: int
    node: int

    @classmethod
    def of(cls, told: _native.Counts) -> Counts:
        return cls(*(getattr(told, name) for name in cls._fields))
