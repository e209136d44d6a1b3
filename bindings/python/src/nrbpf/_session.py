"""Sessions: one slot of one node, by which a thread makes its calls."""

from __future__ import annotations

import ctypes
import time
from collections.abc import Callable, Iterable, Iterator, Sequence
from typing import TYPE_CHECKING, Any, NamedTuple

from . import _native
from ._errors import NO_PROGRAM, REPLY_NO_ROOM, NoPlaceError, Pending, Status, check, pending, within
from ._facts import Counts, MapInfo, Mode, ProgramInfo
from ._handle import Handle
from ._manifest import Buffer, as_bytes
from ._signals import at_once
from ._state import State

if TYPE_CHECKING:
    from ._store import Store

_library = _native.library
_END = 0xFFFFFFFF


class Answer(NamedTuple):
    """Of an update its index, how many stand before it, and of a read how many updates it has seen; and what the
    program replied."""

    point: int
    reply: int

    @property
    def signed(self) -> int:
        """The reply with its sign: an error such as -2 is replied as 2**64 - 2."""
        return self.reply - (self.reply >> 63 << 64)


class Found(NamedTuple):
    """How many updates the map had seen, and the value of the key, or None where there is no such key."""

    point: int
    value: bytes | None


class Page(NamedTuple):
    """How many updates the map had seen, entries of it, and the place to go on from, or None at the end."""

    point: int
    entries: list[tuple[bytes, bytes]]
    next: int | None


class Replies(NamedTuple):
    """How many updates the maps had seen, and a reply for each question."""

    point: int
    replies: list[int]


class Session(Handle):
    """A session of a store, of `Store.attach`. It is given back by `detach` or a `with`.

    A session is one thread's at a time: a second call meanwhile waits for the first, and one with `try_` in its name
    answers BUSY.
    """

    def __init__(self, store: Store) -> None:
        self._polled_answer = _native.Answered()
        super().__init__(store, _library.nrbpf_poll, self._polled_answer)
        self._is_install = False  # whether what was posted last is an install

    # ---- Calls

    def update(self, program: int, argument: Buffer = b"") -> Answer:
        """Runs a program that may change the maps, and waits for other sessions where they are in the way."""
        return self._answer(_library.nrbpf_update, program, as_bytes(argument))

    def read(self, program: int, argument: Buffer = b"") -> Answer:
        """Runs a program that changes nothing, on all updates that were answered when the call began."""
        return self._answer(_library.nrbpf_read, program, as_bytes(argument))

    def install(self, mode: Mode, argument_len: int, code: Buffer) -> Answer:
        """Adds a program to the store while it runs. The reply is its number from then on. NoPlaceError: no spare place is
        left."""
        install = _Install(mode, argument_len, code)
        check(self._use(lambda at: _library.nrbpf_install(at, *install.native())), install.fault)
        return install.told()

    def install_within(self, maps: Iterable[int], mode: Mode, argument_len: int, code: Buffer) -> Answer:
        """As `install`, for a program that may name these maps alone, by their numbers. A number that no map has says
        nothing. A program that names another map is refused: NotAccepted, with V16 and the first slot that does."""
        install = _Install(mode, argument_len, code)
        check(self._use(lambda at: _library.nrbpf_install_within(at, *install.confined(maps))), install.fault)
        return install.told()

    def try_update(self, program: int, argument: Buffer = b"") -> Answer | Pending:
        """As `update`, and waits for nobody. Of POSTED the store has the update, once: `poll` or `wait` is the
        session's next call then."""
        answer, program, text = _native.Answered(), within(program, 16, Status.UNKNOWN_PROGRAM), as_bytes(argument)
        status = self._try_to_post(_library.nrbpf_try_update, program, text, len(text), answer)
        return pending(status) or Answer(answer.point, answer.reply)

    def try_read(self, program: int, argument: Buffer = b"") -> Answer | Pending:
        """As `read`, and waits for nobody."""
        answer, program, text = _native.Answered(), within(program, 16, Status.UNKNOWN_PROGRAM), as_bytes(argument)
        status = self._try(lambda at: _library.nrbpf_try_read(at, program, text, len(text), answer))
        return pending(status) or Answer(answer.point, answer.reply)

    def try_install(self, mode: Mode, argument_len: int, code: Buffer) -> Answer | Pending:
        """As `install`, and waits for nobody."""
        install = _Install(mode, argument_len, code)
        status = self._try_to_post(_library.nrbpf_try_install, *install.native(), is_install=True)
        return pending(status, install.fault) or install.told()

    def try_install_within(
        self, maps: Iterable[int], mode: Mode, argument_len: int, code: Buffer
    ) -> Answer | Pending:
        """As `install_within`, and waits for nobody."""
        install = _Install(mode, argument_len, code)
        status = self._try_to_post(_library.nrbpf_try_install_within, *install.confined(maps), is_install=True)
        return pending(status, install.fault) or install.told()

    def poll(self) -> Answer | Pending:
        """Goes on with the update or the install that is posted, and waits for nobody."""
        return at_once(self._lock, self._poll_answer, self._is_taken)

    def wait(self) -> Answer:
        """Goes on with the update or the install that is posted until it is answered, and with what others of the store
        have posted."""
        tries = 0
        while True:
            told = self.poll()
            if not isinstance(told, Pending):
                return told
            tries += 1
            self._store._posts.poll_others(self._posted)
            time.sleep(0 if tries < 100 else 0.0001)

    # ---- More reads

    def get(self, map: int, key: Buffer) -> Found:
        """The value of a key of a map, counted from 0 as the manifest has them. An array's key is its index in 4 bytes,
        the low one first."""
        room, found, given = self._room(map), _native.FoundThere(), as_bytes(key)
        check(self._use(lambda at: _library.nrbpf_get(at, map, given, len(given), room, len(room), found)))
        return _found(room, found)

    def try_get(self, map: int, key: Buffer) -> Found | Pending:
        """As `get`, and waits for nobody."""
        room, found, given = self._room(map), _native.FoundThere(), as_bytes(key)
        status = self._try(lambda at: _library.nrbpf_try_get(at, map, given, len(given), room, len(room), found))
        return pending(status) or _found(room, found)

    def scan(self, map: int, *, room: int = 256) -> Iterator[tuple[bytes, bytes]]:
        """All entries of a map, by pages with room for so many. Pages may be of several points of the history, and a
        deletion may move a key to another page; a snapshot is of one point."""
        start: int | None = 0
        while start is not None:
            page = self.scan_page(map, start, room=room)
            yield from page.entries
            start = page.next

    def scan_page(self, map: int, start: int = 0, *, room: int = 256) -> Page:
        """Entries of a map from a place on, at most so many, at one point of the history. It may give none and have a
        place to go on from."""
        page = _Rooms(self._store, map, room)
        check(self._use(lambda at: _library.nrbpf_scan(at, map, _place(start), *page.native())))
        return page.told()

    def try_scan_page(self, map: int, start: int = 0, *, room: int = 256) -> Page | Pending:
        """As `scan_page`, and waits for nobody."""
        page = _Rooms(self._store, map, room)
        status = self._try(lambda at: _library.nrbpf_try_scan(at, map, _place(start), *page.native()))
        return pending(status) or page.told()

    def read_each(self, questions: Sequence[tuple[int, Buffer]]) -> Replies:
        """Answers up to 16 reads, each a program and its argument, at one point. Without any it brings the node up to
        what is completed."""
        each = _Questions(questions)
        check(self._use(lambda at: _library.nrbpf_read_each(at, *each.native())), each.fault)
        return each.told()

    def try_read_each(self, questions: Sequence[tuple[int, Buffer]]) -> Replies | Pending:
        """As `read_each`, and waits for nobody."""
        each = _Questions(questions)
        status = self._try(lambda at: _library.nrbpf_try_read_each(at, *each.native()))
        return pending(status, each.fault) or each.told()

    def map_info(self, map: int) -> MapInfo:
        """What a map is, counted from 0 as the manifest has them: its shape, and how many keys it has."""
        told, map = _native.MapFacts(), within(map, 32, Status.UNKNOWN_MAP)
        check(self._use(lambda at: _library.nrbpf_map_info(at, map, told, ctypes.sizeof(told))))
        return MapInfo.of(told)

    def try_map_info(self, map: int) -> MapInfo | Pending:
        """As `map_info`, and waits for nobody."""
        told, map = _native.MapFacts(), within(map, 32, Status.UNKNOWN_MAP)
        status = self._try(lambda at: _library.nrbpf_try_map_info(at, map, told, ctypes.sizeof(told)))
        return pending(status) or MapInfo.of(told)

    def program_info(self, program: int) -> ProgramInfo:
        """What the program of a number is: its mode, its name, and the maps that it names."""
        told, program = _native.ProgramFacts(), within(program, 16, Status.UNKNOWN_PROGRAM)
        check(self._use(lambda at: _library.nrbpf_program_info(at, program, told, ctypes.sizeof(told))))
        return ProgramInfo.of(told)

    def try_program_info(self, program: int) -> ProgramInfo | Pending:
        """As `program_info`, and waits for nobody."""
        told, program = _native.ProgramFacts(), within(program, 16, Status.UNKNOWN_PROGRAM)
        status = self._try(lambda at: _library.nrbpf_try_program_info(at, program, told, ctypes.sizeof(told)))
        return pending(status) or ProgramInfo.of(told)

    def stats(self) -> Counts:
        """What the store has done, and how far the session's node has come: the first five counts are of one moment of
        the call. For the other nodes ask a session of each."""
        told = _native.Counts()
        check(self._use(lambda at: _library.nrbpf_stats(at, told, ctypes.sizeof(told))))
        return Counts.of(told)

    def try_stats(self) -> Counts | Pending:
        """As `stats`, and waits for nobody."""
        told = _native.Counts()
        status = self._try(lambda at: _library.nrbpf_try_stats(at, told, ctypes.sizeof(told)))
        return pending(status) or Counts.of(told)

    def snapshot(self, into: State) -> int:
        """Makes a state the store's at one point of the history, and answers the point. Sessions of the same node wait
        meanwhile."""
        point = ctypes.c_uint64()
        check(self._use(lambda at: into.use(lambda state: _library.nrbpf_snapshot(at, state, point))))
        return point.value

    def try_snapshot(self, into: State) -> int | Pending:
        """As `snapshot`, and waits for nobody: BUSY leaves the state as it was."""
        point = ctypes.c_uint64()
        status = self._try(lambda at: into.use(lambda state: _library.nrbpf_try_snapshot(at, state, point)))
        return pending(status) or point.value

    # ---- How calls are made

    def _give_back(self) -> int:
        return self._store._given_back(self, _library.nrbpf_detach)

    def _poll_answer(self) -> Answer | Pending:
        told = pending(self._poll())
        if told is not None:
            return told
        answer = Answer(self._polled_answer.point, self._polled_answer.reply)
        return _placed(answer) if self._is_install else answer

    def _try_to_post(self, call: Callable[..., Any], *given: object, is_install: bool = False) -> int:
        def post() -> int:
            self._check_idle()
            self._is_install = is_install
            return self._post(call, *given)

        return at_once(self._lock, post, lambda: Pending.BUSY.value)

    def _answer(self, call: Callable[..., Any], program: int, argument: bytes) -> Answer:
        answer, program = _native.Answered(), within(program, 16, Status.UNKNOWN_PROGRAM)
        with self._lock:
            self._check_idle()
            status = call(self._at, program, argument, len(argument), answer)
        check(status)
        return Answer(answer.point, answer.reply)

    def _room(self, map: int) -> ctypes.Array[ctypes.c_char]:
        """Room for a value of a map."""
        return ctypes.create_string_buffer(self._store.shape(map).value)


def _place(start: int) -> int:
    return within(start, 32, Status.UNKNOWN_PLACE)


def _found(room: ctypes.Array[ctypes.c_char], found: _native.FoundThere) -> Found:
    return Found(found.point, room.raw if found.is_there else None)


def _placed(answer: Answer) -> Answer:
    """The answer to an install that found a place."""
    if answer.reply == REPLY_NO_ROOM:
        raise NoPlaceError(answer.point)
    return answer


class _Install:
    """A program to be installed, and what is told of it."""

    def __init__(self, mode: int, argument_len: int, code: Buffer) -> None:
        self.mode = within(mode, 32, Status.BAD_CALL)
        self.argument_len = within(argument_len, 32, Status.TOO_LARGE)
        self.code = as_bytes(code)
        self.answer, self.fault = _native.Answered(), _native.Fault()

    def native(self) -> tuple[object, ...]:
        return self.mode, self.argument_len, self.code, len(self.code), self.answer, self.fault

    def confined(self, maps: Iterable[int]) -> tuple[object, ...]:
        bits = sum({1 << map for map in maps if 0 <= map < 16})
        program = _native.Confined(bits, self.mode, self.argument_len, self.code, len(self.code))
        return program, self.answer, self.fault

    def told(self) -> Answer:
        return _placed(Answer(self.answer.point, self.answer.reply))


class _Rooms:
    """Room for a page, and what is told of it."""

    def __init__(self, store: Store, map: int, room: int) -> None:
        _, self.key, self.value, _ = store.shape(map)
        if room < 1:
            raise ValueError("room is a number of entries from 1 on: a scan with less comes to no end")
        self.keys = ctypes.create_string_buffer(self.key * room)
        self.values = ctypes.create_string_buffer(self.value * room)
        self.scanned = _native.Scanned()

    def native(self) -> tuple[object, ...]:
        return self.keys, len(self.keys), self.values, len(self.values), self.scanned

    def told(self) -> Page:
        keys, values = self.keys.raw, self.values.raw
        entries = [
            (keys[k * self.key : (k + 1) * self.key], values[k * self.value : (k + 1) * self.value])
            for k in range(self.scanned.count)
        ]
        return Page(self.scanned.point, entries, None if self.scanned.next == _END else self.scanned.next)


class _Questions:
    """Questions, and room for what is told."""

    def __init__(self, questions: Sequence[tuple[int, Buffer]]) -> None:
        given = [(NO_PROGRAM if program >> 16 else program, as_bytes(argument)) for program, argument in questions]
        asked = [_native.Asked(argument, len(argument), program) for program, argument in given]
        self.asked = (_native.Asked * len(asked))(*asked)
        self.replies = (ctypes.c_uint64 * len(asked))()
        self.point, self.fault = ctypes.c_uint64(), _native.Fault()

    def native(self) -> tuple[object, ...]:
        return self.asked, len(self.asked), self.replies, self.point, self.fault

    def told(self) -> Replies:
        return Replies(self.point.value, list(self.replies))
