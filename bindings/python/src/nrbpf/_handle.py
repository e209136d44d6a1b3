"""What sessions and lanes share: one call at a time, and their end."""

from __future__ import annotations

import contextlib
import ctypes
import threading
import time
from _thread import start_new_thread
from collections.abc import Callable
from types import TracebackType
from typing import TYPE_CHECKING, Any, TypeVar

from ._errors import Error, Pending, Status, check, error_of
from ._posted import POSTED, Posted
from ._signals import Owner, at_once

if TYPE_CHECKING:
    from ._store import Store

Own = TypeVar("Own", bound="Handle")


class Handle(Owner):
    """Some slots of a store. It is given back by `detach` or a `with`.

    It is one thread's at a time: a second call meanwhile waits for the first, and one with `try_` in its name answers
    BUSY.
    """

    def __init__(self, store: Store, poll: Callable[..., Any], room: object) -> None:
        super().__init__()
        self._store = store
        self._lock = threading.Lock()
        self._posted = Posted(self._lock, poll, self._at, room)
        self._is_out = False  # whether something is posted, whose answer is not told yet: others may have polled it

    @property
    def store(self) -> Store:
        return self._store

    def _give_back(self) -> int:
        """Gives it back to the library."""
        raise NotImplementedError

    def _attached(self: Own, attach: Callable[..., Any], *given: object) -> Own:
        """Has the library attach it. If a signal comes then, it is given back."""
        try:
            self._store._attach(self, attach, *given)
            return self
        except BaseException:
            self._end()
            raise

    # ---- Its end

    def detach(self) -> None:
        """Gives the slots back. Refused with H3 while an update is posted and not answered; once they are given back
        this does nothing."""
        with self._lock:
            if self._at.value is not None:
                self._check_idle()
                check(self._give_back())

    def _end(self) -> None:
        """Gives the slots back, once what is posted is answered, if there is something. Meanwhile it polls what others of
        the store have posted."""
        while True:
            try:
                self.detach()
                return
            except Error as why:
                if why.status != Status.UNANSWERED:
                    raise
            with self._lock:
                if self._at.value is not None:
                    self._poll()
            self._store._posts.poll_others(self._posted)
            time.sleep(0)

    def __enter__(self: Own) -> Own:
        return self

    def __exit__(
        self, kind: type[BaseException] | None, why: BaseException | None, trace: TracebackType | None
    ) -> None:
        self._end()

    def __del__(self) -> None:
        """The collector may be here in the middle of another call, which has the lock: so it is a thread that waits."""
        if self._is_left and not at_once(self._lock, self._is_given_back, lambda: False):
            with contextlib.suppress(RuntimeError):  # the interpreter begins no thread while it ends
                start_new_thread(self._end, ())

    def _is_given_back(self) -> bool:
        return not self._is_out and self._give_back() == 0

    # ---- How calls are made

    def _use(self, call: Callable[[ctypes.c_void_p], Any]) -> int:
        """Makes a call of the library, one at a time."""
        with self._lock:
            status = self._call(call)
        return status

    def _try(self, call: Callable[[ctypes.c_void_p], Any]) -> int:
        """The same, and waits for nobody."""
        return at_once(self._lock, lambda: self._call(call), lambda: Pending.BUSY.value)

    def _call(self, call: Callable[[ctypes.c_void_p], Any]) -> int:
        self._check_idle()
        status: int = call(self._at)
        return status

    def _check_idle(self) -> None:
        """Others may have polled what is posted: then the library has its answer no more."""
        if self._at.value is None:
            raise error_of(Status.DETACHED)
        if self._is_out:
            raise error_of(Status.UNANSWERED)

    def _post(self, call: Callable[..., Any], *given: object) -> int:
        """Makes a call that may post something, under the lock. It is noted as posted before, and if it is not, that is
        taken back where no signal comes in between."""
        posted, posts = self._posted, self._store._posts
        try:
            self._is_out = True
            posts.add(posted)
            posted.post(call, self._at, *given)
        finally:
            if posted.told[0] != POSTED:
                self._is_out = False
                posts.discard(posted)
        return posted.told[0]

    def _poll(self) -> int:
        """Goes on with what is posted, under the lock."""
        if self._at.value is None:
            raise error_of(Status.DETACHED)
        if not self._is_out:
            return Status.NOTHING_POSTED
        status = self._posted.poll()
        if status != POSTED:
            self._is_out = False
            self._store._posts.discard(self._posted)
        return status

    def _is_taken(self) -> Pending:
        """What a poll answers while somebody has the lock, who polls it too if something is posted."""
        return Pending.POSTED if self._is_out else Pending.BUSY
