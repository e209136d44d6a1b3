"""What a signal must not part. Ctrl-C may raise where a function begins, where a loop turns, and once a call of C has
returned: so what is done and the note that it is done are one call here, of `extend`."""

from __future__ import annotations

import contextlib
import ctypes
import os
import threading
from _thread import start_new_thread
from collections.abc import Callable
from itertools import starmap
from queue import SimpleQueue
from typing import Any, TypeVar

Told = TypeVar("Told")
Take = Callable[[bytes], object]


class Owner:
    """What has something of the library's at `_at`, where the library itself writes it, until it is ended."""

    _at = ctypes.c_void_p()

    def __init__(self) -> None:
        self._at = ctypes.c_void_p()
        self._process = os.getpid()

    @property
    def _is_left(self) -> bool:
        """Whether it has to be ended as nothing refers to it any more. A forked child leaves it to its parent."""
        return self._at.value is not None and self._process == os.getpid()


def end(owner: Owner, call: Callable[..., Any], *given: object) -> int:
    """Has the library end what is at `owner._at`, once, and answers the status. If that is 0, nothing is there."""
    at = owner._at.value
    told: list[int | None] = []
    try:
        owner._at.value = None
        told.extend(starmap(call, [(at, *given)]))
    finally:
        if not told or told[0]:
            owner._at.value = at  # nothing is ended
    return told[0] or 0


def at_once(lock: threading.Lock, call: Callable[[], Told], otherwise: Callable[[], Told]) -> Told:
    """What `call` answers, which has the lock meanwhile, or what `otherwise` does if the lock is taken."""
    got: list[bool] = []
    try:
        got.extend(map(lock.acquire, [False]))
        told = call() if got[0] else otherwise()
    finally:
        if got and got[0]:
            lock.release()
    return told


def apart(make: Callable[[Take], None], take: Take) -> None:
    """Has another thread make something in parts, and takes them in this one. What `take` raises ends the making.
    Signals raise in the main thread alone: none does in a function that the library calls, where it would be lost."""
    parts: SimpleQueue[bytes | BaseException | None] = SimpleQueue()  # and last what the making raised, or None
    answers: SimpleQueue[bool] = SimpleQueue()  # of each part, whether another one is wanted
    begun: list[int] = []
    running = threading.Lock()
    running.acquire()

    def give(part: bytes) -> None:
        parts.put(part)
        if not answers.get():
            raise InterruptedError

    def run() -> None:
        try:
            make(give)
            parts.put(None)
        except BaseException as why:
            parts.put(why)
        finally:
            running.release()

    try:
        with contextlib.suppress(RuntimeError):  # the interpreter begins no thread while it ends
            begun.extend(starmap(start_new_thread, [(run, ())]))
        if not begun:
            return make(take)
        while isinstance(part := parts.get(), bytes):
            take(part)
            answers.put(True)
        if part:
            raise part
    finally:
        part = None  # it refers to this frame
        answers.put(False)
        if begun:
            running.acquire()
