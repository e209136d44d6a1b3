"""A node-replicated store in memory, shared by the threads of a service, whose operations are verified eBPF programs.

    manifest = nrbpf.Manifest.read("examples/counter/manifest")
    with nrbpf.open(manifest, nodes=2, slots=4) as store:
        bump = store.program("bump")
        with store.attach(node=0) as session:               # a session for this thread
            print(session.update(bump, bytes([3, 0, 0, 0])))

A store is any thread's, a session one thread's at a time. ctypes lets the interpreter's lock go while a call is made,
so threads wait for each other in the store alone. Make no call in a forked child of a process with threads.
"""

from ._errors import (
    REPLY_INVALID,
    REPLY_NO_ROOM,
    CallError,
    DumpError,
    Error,
    HostError,
    ManifestError,
    NoPlaceError,
    OpeningError,
    Pending,
    Status,
)
from ._facts import Counts, MapInfo, MapShape, Mode, ProgramFacts, ProgramInfo, StoreInfo
from ._lane import MOST_SLOTS, Lane
from ._manifest import LARGE, STANDARD, Limits, Manifest, Sizes
from ._native import VERSION
from ._session import Answer, Found, Page, Replies, Session
from ._state import State
from ._store import Store, open

__version__ = "2.7.0"
BUSY = Pending.BUSY
POSTED = Pending.POSTED
ENDLESS = 0

__all__ = [
    "BUSY",
    "ENDLESS",
    "LARGE",
    "MOST_SLOTS",
    "POSTED",
    "REPLY_INVALID",
    "REPLY_NO_ROOM",
    "STANDARD",
    "VERSION",
    "Answer",
    "CallError",
    "Counts",
    "DumpError",
    "Error",
    "Found",
    "HostError",
    "Lane",
    "Limits",
    "Manifest",
    "ManifestError",
    "MapInfo",
    "MapShape",
    "Mode",
    "NoPlaceError",
    "OpeningError",
    "Page",
    "Pending",
    "ProgramFacts",
    "ProgramInfo",
    "Replies",
    "Session",
    "Sizes",
    "State",
    "Status",
    "Store",
    "StoreInfo",
    "__version__",
    "open",
]
