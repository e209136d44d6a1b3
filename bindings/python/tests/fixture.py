"""What the tests share: the examples of the repository, and programs that are installed."""

from __future__ import annotations

import contextlib
import os
import struct
from collections.abc import Callable, Iterator
from pathlib import Path
from typing import TypeVar

import nrbpf

TOP = Path(__file__).resolve().parents[3]
FIVE = bytes.fromhex("b700000005000000 9500000000000000")  # replies 5
NAMES_MAP_0 = bytes.fromhex("1851000000000000 0000000000000000 b700000000000000 9500000000000000")  # in its slot 0
NOTHING_IN_R0 = bytes.fromhex("9500000000000000")
LAST = bytes.fromhex("7910f83f00000000 9500000000000000")  # replies the last eight of the 16,384 bytes of its argument
# The first program puts all bytes of its argument but the first four under these four. The second is LAST.
LONG_ARGUMENTS = nrbpf.Manifest(
    "map hash 4 16380 4\nprogram put update 16384 put\nprogram last read 16384 last\n",
    {
        "put": "bf12000000000000bf1300000000000007030000040000001851000000000000"
        "0000000000000000b70400000000000085000000020000009500000000000000",
        "last": LAST.hex(),
    },
)
T = TypeVar("T")


def example(name: str) -> nrbpf.Manifest:
    return nrbpf.Manifest.read(TOP / "examples" / name / "manifest", TOP)


def text_of(path: str) -> str:
    return (TOP / "examples" / path).read_text("utf-8")


def five_in(slots: int) -> bytes:
    """A program of so many slots that replies 5."""
    return FIVE[:8] * (slots - 1) + FIVE[8:]


def u32(number: int) -> bytes:
    return struct.pack("<I", number)


@contextlib.contextmanager
def counter(**sizes: int) -> Iterator[tuple[nrbpf.Store, nrbpf.Session, int, int]]:
    """A store of examples/counter, a session of it, and the numbers of bump and peek."""
    with nrbpf.open(example("counter"), **sizes) as store, store.attach() as session:
        yield store, session, store.program("bump"), store.program("peek")


def answered(session: nrbpf.Session, told: T | nrbpf.Pending, again: Callable[[], T | nrbpf.Pending]) -> T:
    """The answer of a call that waits for nobody, which is asked again while others are in the way."""
    while isinstance(told, nrbpf.Pending):
        told = session.poll() if told is nrbpf.POSTED else again()  # type: ignore[assignment]
        os.sched_yield()
    return told


def tried(session: nrbpf.Session, call: Callable[[], T | nrbpf.Pending]) -> T:
    return answered(session, call(), call)
