"""Ctrl-C at each step of what opens, attaches and posts, and in the middle of a dump: nothing is lost, and nothing is
answered wrongly."""

import contextlib
import ctypes
import gc
import io
import itertools
import signal
import sys
import time
import unittest
import warnings
from unittest import mock

import nrbpf
from nrbpf import _native
from tests.fixture import counter, example, text_of, u32
from tests.test_ends import Steps, interrupt

BUSY, POSTED = 1, 2  # as the library answers them


def patched(**calls):
    """The library with other functions."""
    return mock.patch.multiple(_native.library, **{f"nrbpf_{name}": call for name, call in calls.items()})


def address(at):
    return ctypes.cast(at, ctypes.c_void_p).value


class Held:
    """How many things the library has made with some functions and not ended with others."""

    def __init__(self, makers, enders):
        self.count, library = 0, _native.library
        changed = {name: self.counting(getattr(library, f"nrbpf_{name}"), 1) for name in makers}
        changed |= {name: self.counting(getattr(library, f"nrbpf_{name}"), -1) for name in enders}
        self.patches = patched(**changed)

    def counting(self, call, change):
        def count(*given):
            status = call(*given)
            self.count += 0 if status else change
            return status

        return count


class Opened(unittest.TestCase):
    def at_each_step(self, make, makers, enders):
        """What is made, or would have been, is ended once nothing refers to it."""
        held = Held(makers, enders)
        lost = mock.patch.object(sys, "unraisablehook", lambda _: None)  # (what a `__del__` raises is told to this)
        with held.patches, lost, warnings.catch_warnings():
            warnings.simplefilter("ignore", ResourceWarning)
            for number in itertools.count():
                made, steps = [], Steps(number, interrupt)
                with contextlib.suppress(KeyboardInterrupt):
                    steps.run(lambda: made.append(make()))  # noqa: B023  (it runs in this turn)
                made.clear()
                if held.count:
                    gc.collect()
                self.assertEqual(held.count, 0, f"step {number}")
                if steps.is_over:
                    self.assertGreater(number, 2)
                    return

    def test_open(self):
        self.at_each_step(lambda: nrbpf.open(example("counter"), window=16), ["open"], ["close"])

    def test_open_on(self):
        with nrbpf.State.load(example("counter"), b"") as state:
            self.at_each_step(lambda: nrbpf.open(example("counter"), window=16, state=state), ["open_on"], ["close"])

    def test_attach(self):
        with nrbpf.open(example("counter"), window=16) as store:
            self.at_each_step(store.attach, ["attach"], ["detach"])
            self.at_each_step(lambda: store.attach_lane(0, 1), ["attach_lane"], ["detach_lane"])

    def test_states(self):
        with nrbpf.open(example("counter"), window=16) as store:
            self.at_each_step(store.new_state, ["state_new"], ["state_free"])
        self.at_each_step(lambda: nrbpf.State.load(example("counter"), b""), ["state_load"], ["state_free"])

    def test_a_store_ends_while_an_attach_is_interrupted(self):
        """The exception still refers to what was attached."""
        for number in itertools.count():
            made, store, steps = [], nrbpf.open(example("counter"), window=16), Steps(number, interrupt)
            with contextlib.suppress(KeyboardInterrupt), store:
                steps.run(lambda: made.append(store.attach()))  # noqa: B023
                made.pop().detach()
            with self.assertRaises(RuntimeError):
                store.info()
            if steps.is_over:
                return

    def test_close_into(self):
        """The state that a store ends in isn't lost."""
        for number in itertools.count():
            store = nrbpf.open(example("counter"), window=16)
            with store.attach() as session:
                session.update(0, u32(3))
            steps = Steps(number, interrupt)
            with contextlib.suppress(KeyboardInterrupt):
                steps.run(store.close_into)
            with store.close_into() as state:
                self.assertEqual(state.dump(), b"0 03000000 0100000000000000\n", f"step {number}")
            with self.assertRaises(RuntimeError):
                store.close_into()
            if steps.is_over:
                return


class Posted(unittest.TestCase):
    """Over a library whose updates are posted, and answered when they are polled."""

    def setUp(self):
        self.posted, self.polled = [], []
        posts = {name: self.post for name in ("try_update", "try_install", "try_update_each")}
        changed = patched(**posts, poll=self.poll, poll_each=self.poll_each)
        changed.start()
        self.addCleanup(changed.stop)

    def post(self, at, *_):
        self.posted.append(address(at))
        return POSTED

    def poll(self, at, answer):
        self.polled.append(address(at))
        answer.point, answer.reply = 7, 2**64 - 7
        return 0

    def poll_each(self, at, outcomes):
        for number, outcome in enumerate(outcomes):
            outcome.point, outcome.reply, outcome.status = number, 5, 0
        return 0

    def at_each_step(self, post, check):
        for number in itertools.count():
            self.posted.clear()
            steps = Steps(number, interrupt)
            with contextlib.suppress(KeyboardInterrupt):
                steps.run(post)
            with self.subTest(step=number, posted=bool(self.posted)):
                check()
            if steps.is_over:
                self.assertGreater(number, 2)
                return

    def test_sessions(self):
        def check():
            if not self.posted:
                self.assertEqual(session.read(peek, u32(3)).reply, 0)
                return
            self.assertEqual(other.try_update(bump, u32(3)), nrbpf.POSTED)
            self.polled.clear()
            store._posts.poll_others(other._posted)
            self.assertEqual(self.polled, self.posted[:1])  # others go on with it
            self.assertEqual(session.wait(), (7, 2**64 - 7))
            self.assertEqual(other.wait(), (7, 2**64 - 7))

        with counter(slots=2) as (store, session, bump, peek), store.attach() as other:
            self.at_each_step(lambda: session.try_update(bump, u32(3)), check)

    def test_installs(self):
        def check():
            if self.posted:
                with self.assertRaises(nrbpf.NoPlaceError):  # so an install was posted
                    session.wait()

        with counter() as (_, session, _, _):
            self.at_each_step(lambda: session.try_install(nrbpf.Mode.READ, 0, b""), check)

    def test_lists(self):
        def check():
            if self.posted:
                self.assertEqual(lane.wait_each(), [(0, 5), (1, 5), (2, 5)])
            self.assertEqual(lane.update_each([(bump, u32(3))])[0].point, next(points))

        points = itertools.count()
        with counter(slots=4) as (store, _, bump, _), store.attach_lane(0, 3) as lane:
            self.at_each_step(lambda: lane.try_update_each([(bump, u32(3))] * 3), check)

    def test_others(self):
        """What is answered, refused or not asked is not posted, with Ctrl-C and without it."""
        for status in (0, BUSY, nrbpf.Status.FULL):
            with counter() as (store, session, bump, peek), patched(try_update=lambda *_: status):  # noqa: B023

                def post():
                    with contextlib.suppress(nrbpf.CallError):
                        session.try_update(bump, u32(3))  # noqa: B023

                def check():
                    self.assertEqual(session.read(peek, u32(3)).reply, 0)  # noqa: B023
                    store._posts.poll_others(None)  # noqa: B023
                    self.assertEqual(self.polled, [])

                self.at_each_step(post, check)


class Dumps(unittest.TestCase):
    def test_a_signal_between_two_parts(self):
        """It is there before the library calls the writer for the second one."""

        def dump(_at, writer, _to):
            room = ctypes.create_string_buffer(b"a line\n")
            write = itertools.starmap(writer, [(None, room, 7)] * 2)
            # (these are one call for the interpreter)
            told = list(itertools.chain(itertools.islice(write, 1), map(send, [signal.SIGINT]), write))
            return nrbpf.Status.STOPPED if any(told) else 0

        send = ctypes.CDLL(None)["raise"]
        for call in (lambda state: state.dump(), lambda state: state.dump_to(io.BytesIO())):
            with nrbpf.State.load(example("counter"), text_of("counter/state").encode()) as state:
                with patched(state_dump=dump), self.assertRaises(KeyboardInterrupt):
                    call(state)
                self.assertEqual(state.dump().decode(), text_of("counter/state"))

    def test_signals_at_any_time(self):
        """A dump has all lines, or the signal's exception comes."""

        def ring(*_):
            raise KeyboardInterrupt

        before = signal.signal(signal.SIGALRM, ring)
        self.addCleanup(signal.signal, signal.SIGALRM, before)
        manifest = nrbpf.Manifest("map array 8 4096\n", {})
        text = "".join(sorted(f"0 {u32(key).hex()} ff00000000000000\n" for key in range(4096))).encode()
        with nrbpf.State.load(manifest, text) as state:
            begun = time.perf_counter()
            state.dump()
            taken = time.perf_counter() - begun
            for number in range(1, 40):
                dump = text
                with self.assertRaises(KeyboardInterrupt):
                    signal.setitimer(signal.ITIMER_REAL, taken * number / 40)
                    dump = state.dump()
                    time.sleep(1)
                self.assertEqual(dump, text)


if __name__ == "__main__":
    unittest.main()
