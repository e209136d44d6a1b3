"""Lanes: several slots of one node, by which a thread asks for several updates at once."""

from __future__ import annotations

import ctypes
import struct
import time
from collections.abc import Callable, Sequence
from typing import TYPE_CHECKING, Any

from . import _native
from ._errors import NO_PROGRAM, Pending, Status, pending
from ._handle import Handle
from ._manifest import Buffer, as_bytes
from ._session import Answer
from ._signals import at_once

if TYPE_CHECKING:
    from ._store import Store

_library = _native.library
MOST_SLOTS = 16
# An outcome, and tables of so many calls, as the library has them.
_OUTCOME = struct.Struct("=QQI4x")
_CALLS = [struct.Struct("=" + "QQH6x" * count) for count in range(MOST_SLOTS + 1)]


class Lane(Handle):
    """Some slots of one node, of `Store.attach_lane`. A list of updates is asked for by one call, which costs less than
    as many calls. It is given back by `detach` or a `with`, and is one thread's at a time, as a session."""

    def __init__(self, store: Store, slots: int) -> None:
        self._outcomes = (_native.Outcome * MOST_SLOTS)()
        super().__init__(store, _library.nrbpf_poll_each, self._outcomes)
        self._slots, self._count = slots, 0  # of the last list
        self._arguments = _Arguments(64 * MOST_SLOTS)
        self._calls = (_native.Asked * MOST_SLOTS)()
        self._told = memoryview(self._outcomes).cast("B")
        self._fault = _native.Fault()

    @property
    def slots(self) -> int:
        """How many updates a list has at most."""
        return self._slots

    def update_each(self, calls: Sequence[tuple[int, Buffer]]) -> list[Answer | None]:
        """Runs programs that may change the maps, each with its argument, and waits for other sessions where they are
        in the way. Answers each in its place: None where the history is full (S4). A list is refused as a whole, with
        the first call that is refused as the error's slot. Each update is an operation of its own: those of others may
        stand between two of them."""
        with self._lock:
            told = self._ask(_library.nrbpf_update_each, calls)
        assert not isinstance(told, Pending)
        return told

    def try_update_each(self, calls: Sequence[tuple[int, Buffer]]) -> list[Answer | None] | Pending:
        """As `update_each`, and waits for nobody. Of POSTED the store has each update, once: `poll_each` or `wait_each`
        is the lane's next call then."""
        return at_once(self._lock, lambda: self._ask(_library.nrbpf_try_update_each, calls), lambda: Pending.BUSY)

    def poll_each(self) -> list[Answer | None] | Pending:
        """Goes on with the list that is posted, and waits for nobody."""
        return at_once(self._lock, self._poll_each, self._is_taken)

    def wait_each(self) -> list[Answer | None]:
        """Goes on with the list that is posted until it is answered, and with what others of the store have posted."""
        tries = 0
        while True:
            told = self.poll_each()
            if not isinstance(told, Pending):
                return told
            tries += 1
            self._store._posts.poll_others(self._posted)
            time.sleep(0 if tries < 100 else 0.0001)

    # ---- How calls are made, under the lock

    def _give_back(self) -> int:
        return self._store._given_back(self, _library.nrbpf_detach_lane)

    def _poll_each(self) -> list[Answer | None] | Pending:
        self._fault.status = 0
        return self._answers(self._poll())

    def _ask(self, call: Callable[..., Any], calls: Sequence[tuple[int, Buffer]]) -> list[Answer | None] | Pending:
        self._check_idle()
        self._count = len(calls)
        if self._count <= MOST_SLOTS:
            self._put(calls)
        return self._answers(self._post(call, self._calls, self._count, self._outcomes, self._fault))

    def _put(self, calls: Sequence[tuple[int, Buffer]]) -> None:
        """Writes the calls as the library takes them: their arguments one behind another, and a table."""
        given = [argument if type(argument) is bytes else as_bytes(argument) for _, argument in calls]
        at = self._arguments.put(b"".join(given))
        table: list[int] = []
        for (program, _), argument in zip(calls, given, strict=True):
            length = len(argument)
            table += (at, length, NO_PROGRAM if program >> 16 else program)
            at += length
        _CALLS[len(given)].pack_into(self._calls, 0, *table)

    def _answers(self, status: int) -> list[Answer | None] | Pending:
        """What a list is told. S4 of the whole list says only that some update got it."""
        if status and status != Status.FULL:
            waits = pending(status, self._fault)
            if waits:
                return waits
        new, told = tuple.__new__, _OUTCOME.iter_unpack(self._told[: 24 * self._count])
        return [None if code else new(Answer, (point, reply)) for point, reply, code in told]


class _Arguments:
    """Room for the arguments of a list."""

    def __init__(self, size: int) -> None:
        self._make(size)

    def _make(self, size: int) -> None:
        room = ctypes.create_string_buffer(size)
        self._at, self._view = ctypes.addressof(room), memoryview(room).cast("B")  # (the view keeps the room)

    def put(self, given: bytes) -> int:
        """Writes these there, and answers where they begin."""
        if len(given) > len(self._view):
            self._make(len(given))
        self._view[: len(given)] = given
        return self._at
