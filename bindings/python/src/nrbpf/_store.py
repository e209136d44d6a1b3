"""Stores, which all threads share."""

from __future__ import annotations

import ctypes
import threading
import warnings
from collections.abc import Callable
from types import TracebackType

from . import _native
from ._errors import Status, check, error_of, within
from ._facts import MapShape, StoreInfo
from ._handle import Handle
from ._lane import MOST_SLOTS, Lane
from ._manifest import ONE_SESSION, STANDARD, Limits, Manifest, Sizes
from ._posted import Posts
from ._session import Session
from ._signals import Owner, end
from ._state import State

_library = _native.library


class Store(Owner):
    """A store of a manifest's maps and programs, each program verified. It is ended by `close` or a `with`, once all
    its sessions are given back."""

    def __init__(self, manifest: Manifest, sizes: Sizes = ONE_SESSION, state: State | None = None) -> None:
        super().__init__()
        self._lock = threading.RLock()  # a session may be given back by the collector, in the middle of a call here
        self._is_lost = False
        self._posts = Posts()
        self._last = State()  # where close_into puts the state
        fault, given = _native.Fault(), (sizes.native(), *manifest.native())
        if state is None:
            status = _library.nrbpf_open(*given, self._at, fault)
        else:
            status = state.use(lambda at: _library.nrbpf_open_on(*given, at, self._at, fault))
        check(status, fault)
        with self.attach() as first:  # no session is attached yet, so none is in the way
            self._maps = tuple(first.map_info(map).shape for map in range(self.info().maps))

    @property
    def maps(self) -> tuple[MapShape, ...]:
        """The shapes of its maps, in the manifest's order."""
        return self._maps

    def info(self) -> StoreInfo:
        """What it is from its opening on: its sizes, and how many maps and programs it has."""
        told = _native.StoreFacts()
        with self._lock:
            check(_library.nrbpf_store_info(self._open(), told, ctypes.sizeof(told)))
        return StoreInfo(*(getattr(told, name) for name in StoreInfo._fields))

    def shape(self, map: int) -> MapShape:
        """The shape of a map, counted from 0. S9 where there is none."""
        if not 0 <= map < len(self._maps):
            raise error_of(Status.UNKNOWN_MAP)
        return self._maps[map]

    def program(self, name: str) -> int:
        """The number of a program of the manifest."""
        number, text = ctypes.c_uint16(), name.encode()
        with self._lock:
            check(_library.nrbpf_program_number(self._open(), text, len(text), number))
        return number.value

    def attach(self, node: int = 0) -> Session:
        """A free session of a node, counted from 0."""
        return Session(self)._attached(_library.nrbpf_attach, within(node, 32, Status.NO_SESSION))

    def attach_lane(self, node: int = 0, slots: int = MOST_SLOTS) -> Lane:
        """Some free sessions of a node as one lane: 1 to 16."""
        given = within(node, 32, Status.NO_SESSION), within(slots, 32, Status.BAD_CALL)
        return Lane(self, slots)._attached(_library.nrbpf_attach_lane, *given)

    def new_state(self) -> State:
        """A state for snapshots of this store, any number of them. It takes the memory of one node's maps."""
        state = State()
        with self._lock:
            check(_library.nrbpf_state_new(self._open(), state._at))
        return state

    def close(self) -> None:
        """Ends the store and gives its memory back. Refused with S5 while a session is attached; once it is ended this
        does nothing."""
        with self._lock:
            if self._at.value is not None:
                check(end(self, _library.nrbpf_close))

    def close_into(self) -> State:
        """Ends the store, and gives the state that it ends in. Until that is freed a second call gives it again, for
        Ctrl-C may take the first answer. Refused with S5 while a session is attached."""
        with self._lock:
            if self._last._at.value is None:
                self._open()
                check(end(self, _library.nrbpf_close_into, self._last._at))
        return self._last

    def __enter__(self) -> Store:
        return self

    def __exit__(
        self, kind: type[BaseException] | None, why: BaseException | None, trace: TracebackType | None
    ) -> None:
        self.close()

    def __del__(self) -> None:
        if not self._is_left:
            return
        warnings.warn(f"unclosed store {self!r}", ResourceWarning, source=self, stacklevel=2)
        with self._lock:
            self._is_lost = True
            self._close_lost()

    # ---- What sessions call

    def _open(self) -> ctypes.c_void_p:
        if self._at.value is None:
            raise RuntimeError("the store is closed")
        return self._at

    def _attach(self, handle: Handle, attach: Callable[..., int], *given: object) -> None:
        with self._lock:
            check(attach(self._open(), *given, handle._at))

    def _given_back(self, handle: Handle, detach: Callable[[int], int]) -> int:
        with self._lock:
            status = end(handle, detach)
            self._close_lost()
        return status

    def _close_lost(self) -> None:
        """Ends a store that nothing refers to any more, once its last session is given back. Until then the library
        refuses."""
        if self._is_lost and self._at.value is not None:
            end(self, _library.nrbpf_close)


def open(
    manifest: Manifest,
    *,
    nodes: int = 1,
    slots: int = 1,
    window: int = 4096,
    limit: int = 0,
    spare: int = 0,
    limits: Limits = STANDARD,
    long_bytes: int = 0,
    state: State | None = None,
) -> Store:
    """Opens a store of a manifest, or goes on from a state, which may be opened on again.

    nodes: 1 to 8, each with a copy of the maps, by which it answers reads
    slots: 1 to 16, the sessions of a node
    window: 16 to 1,048,576, the updates that the log keeps
    limit: the updates of the whole history, behind which there is S4; ENDLESS, 0: no end
    spare: 0 to 4,096, the programs that may be installed later
    limits: STANDARD, LARGE or others: how large the maps and the arguments of programs may be
    long_bytes: 0 to 16,384, the most bytes of an installed program, and of its argument, if that is more than 192 and
        64. The log and each node keep so many bytes for each update of the window
    """
    return Store(manifest, Sizes(nodes, slots, window, limit, spare, limits, long_bytes), state)
