"""States: all keys, values and installed programs at one point of a history."""

from __future__ import annotations

import ctypes
import errno
import io
import threading
from collections.abc import Callable
from types import TracebackType
from typing import Any, Protocol

from . import _native
from ._errors import Status, check
from ._manifest import STANDARD, Buffer, Limits, Manifest, Sizes, as_bytes
from ._signals import Owner, apart, at_once, end

_library = _native.library


class Sink(Protocol):
    """What a dump is written to: a file that was opened for bytes, or the like."""

    def write(self, data: bytes, /) -> object:
        """Takes a part. A number that it answers is how many bytes it took: it gets the rest again."""


class State(Owner):
    """A state. It holds nothing of any store, serves any number of snapshots, and is ended by `free`, a `with`, or when
    nothing refers to it. It takes one call at a time: RuntimeError of a second one meanwhile.

    `Store.new_state` makes one for snapshots, `Store.close_into` gives the one that a store ends in, `State.load` that
    of a dump.
    """

    def __init__(self) -> None:
        super().__init__()
        self._lock = threading.Lock()

    @classmethod
    def load(
        cls, manifest: Manifest, dump: Buffer, *, spare: int = 0, limits: Limits = STANDARD, long_bytes: int = 0
    ) -> State:
        """The state that a dump says, for stores of this manifest with so many spare places, for programs of so many
        bytes. An empty dump is a new store's."""
        state, fault, text = cls(), _native.Fault(), as_bytes(dump)
        config = Sizes(spare=spare, limits=limits, long_bytes=long_bytes).native()
        check(_library.nrbpf_state_load(config, *manifest.native(), text, len(text), state._at, fault), fault)
        return state

    def dump(self) -> bytes:
        """The state as text, which `nrbpf --load` takes too."""
        parts: list[bytes] = []
        apart(self._dump, parts.append)
        return b"".join(parts)

    def dump_to(self, file: Sink) -> None:
        """Writes the same to a file that was opened for bytes. What its `write` raises ends the dump, and is raised."""
        apart(self._dump, lambda part: _write_all(file, part))

    def _dump(self, write: Callable[[bytes], object]) -> None:
        raised: list[BaseException] = []

        def take(_to: object, data: ctypes._Pointer[ctypes.c_char], size: int) -> int:
            try:
                write(ctypes.string_at(data, size))
            except BaseException as why:
                raised.append(why)
            return len(raised)

        status = self.use(lambda at: _library.nrbpf_state_dump(at, _native.Writer(take), None))
        if status == Status.STOPPED and raised:
            raise raised.pop()  # (it refers to this frame)
        check(status)

    def use(self, call: Callable[[ctypes.c_void_p], Any]) -> int:
        """Makes a call of the library on this state."""
        return at_once(self._lock, lambda: self._call(call), self._is_used)

    def free(self) -> None:
        """Gives its memory back. A second time does nothing."""
        if self._at.value is not None:
            at_once(self._lock, self._free, self._is_used)

    def _call(self, call: Callable[[ctypes.c_void_p], Any]) -> int:
        if self._at.value is None:
            raise RuntimeError("the state is ended")
        status: int = call(self._at)
        return status

    def _free(self) -> int:
        return 0 if self._at.value is None else end(self, _library.nrbpf_state_free)

    def _is_used(self) -> int:
        raise RuntimeError("a state takes one call at a time")

    def __enter__(self) -> State:
        return self

    def __exit__(
        self, kind: type[BaseException] | None, why: BaseException | None, trace: TracebackType | None
    ) -> None:
        self.free()

    def __del__(self) -> None:
        if self._is_left:
            self.free()


def _write_all(file: Sink, part: bytes) -> None:
    while part:
        taken = file.write(part)
        if taken == 0 or taken is None and isinstance(file, io.RawIOBase):
            raise BlockingIOError(errno.EAGAIN, "the file takes nothing now", 0)
        part = part[taken:] if isinstance(taken, int) else b""
