"""What sessions and lanes have posted. One that waits for its answer polls the others of its store too: it may have to
wait for them."""

from __future__ import annotations

import ctypes
import threading
from collections import deque
from collections.abc import Callable
from itertools import starmap
from typing import Any

from ._errors import Pending
from ._signals import at_once

POSTED = Pending.POSTED.value


class Posted:
    """The update or the list that a session or a lane has posted last. Whoever has the lock of that one may poll it.
    What it answers is in its room."""

    def __init__(self, lock: threading.Lock, call: Callable[..., Any], at: ctypes.c_void_p, room: object) -> None:
        self._lock, self._call, self._given = lock, call, (at, room)
        self.told = deque([0], maxlen=1)
        """The status of the last call. (The call and the note of it are one call, which Ctrl-C can't part.)"""

    def post(self, call: Callable[..., Any], *given: object) -> None:
        self.told.extend(starmap(call, [given]))

    def poll(self) -> int:
        """Goes on with it, under the lock, until it is answered."""
        if self.told[0] == POSTED:
            self.told.extend(starmap(self._call, [self._given]))
        return self.told[0]

    def poll_if_idle(self) -> None:
        """The same, unless somebody has the lock."""
        at_once(self._lock, self.poll, lambda: Pending.BUSY.value)


class Posts(set[Posted]):
    """All that is posted on a store."""

    def poll_others(self, own: Posted) -> None:
        for it in list(self):
            if it is not own:
                it.poll_if_idle()
