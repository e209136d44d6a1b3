"""Ctrl-C at each step of an end, and threads that end one thing at once: the library ends it once, and then it is
ended. What nothing refers to any more is ended too, by who waits for nobody, and by no forked child."""

import contextlib
import ctypes
import dis
import gc
import itertools
import os
import sys
import threading
import time
import unittest
from unittest import mock

import nrbpf
from nrbpf import _native
from tests.fixture import example, u32

PACKAGE = os.path.dirname(nrbpf.__file__)


class Steps:
    """Does something before one step of the package's code: where a call has returned, so that the interpreter may run
    a signal's handler."""

    def __init__(self, number, do):
        self.left, self.do = number, do
        self.is_after_call = {}  # of each frame

    def run(self, call):
        before = sys.gettrace()
        sys.settrace(self.trace)
        try:
            call()
        finally:
            sys.settrace(before)

    def trace(self, frame, event, _):
        if not frame.f_code.co_filename.startswith(PACKAGE):
            return None
        frame.f_trace_opcodes, frame.f_trace_lines = True, False
        if event == "opcode":
            if self.is_after_call.get(id(frame)):
                self.step()
            name = dis.opname[frame.f_code.co_code[frame.f_lasti]]
            self.is_after_call[id(frame)] = name.startswith("CALL")
        else:
            self.is_after_call[id(frame)] = False
        return self.trace

    def step(self):
        self.left -= 1
        if self.left == -1:
            self.do()

    @property
    def is_over(self):
        """Whether there was no such step."""
        return self.left >= 0


class Counted:
    """Functions of the library that end one thing. None is called after one has ended it."""

    def __init__(self, *names):
        self.ended = 0
        self.patches = [mock.patch.object(_native.library, name, self.counting(name)) for name in names]

    def counting(self, name):
        call = getattr(_native.library, name)

        def count(*given):
            status = 0 if self.ended else call(*given)
            self.ended += not status
            return status

        return count

    def __enter__(self):
        for patch in self.patches:
            patch.start()
        return self

    def __exit__(self, *_):
        for patch in self.patches:
            patch.stop()


def interrupt():
    raise KeyboardInterrupt


class Interrupted(unittest.TestCase):
    def at_each_step(self, names, make):
        """`make` gives a call that ends something, and one that does so if it has not ended."""
        for number in itertools.count():
            first, second = make()
            with Counted(*names) as counted, self.subTest(step=number):
                steps = Steps(number, interrupt)
                with contextlib.suppress(KeyboardInterrupt):
                    steps.run(first)
                second()
                self.assertEqual(counted.ended, 1)
            if steps.is_over:
                self.assertGreater(number, 2)
                return

    def attached(self, attach, name):
        stores = []

        def make():
            stores.append(nrbpf.open(example("counter")))
            it = attach(stores[-1])
            return it.detach, it.detach

        self.at_each_step([name], make)
        for store in stores:
            store.close()  # nothing is attached

    def test_detach(self):
        self.attached(nrbpf.Store.attach, "nrbpf_detach")

    def test_detach_a_lane(self):
        self.attached(lambda store: store.attach_lane(0, 1), "nrbpf_detach_lane")

    def test_close(self):
        def make():
            store = nrbpf.open(example("counter"))
            return store.close, store.close

        self.at_each_step(["nrbpf_close"], make)

    def test_close_into(self):
        states = []

        def make():
            store = nrbpf.open(example("counter"))
            return lambda: states.append(store.close_into()), store.close

        self.at_each_step(["nrbpf_close", "nrbpf_close_into"], make)

    def test_free(self):
        def make():
            state = nrbpf.State.load(example("counter"), b"")
            return state.free, state.free

        self.at_each_step(["nrbpf_state_free"], make)


class AtOnce(unittest.TestCase):
    def test_three_threads_free_a_state(self):
        """Two of them at each step of the third."""

        def free(state):
            with contextlib.suppress(RuntimeError):  # it takes one call at a time
                state.free()

        def others(state):
            threads = [threading.Thread(target=free, args=(state,)) for _ in range(2)]
            for thread in threads:
                thread.start()
            for thread in threads:
                thread.join()

        for number in itertools.count():
            with Counted("nrbpf_state_free") as counted, self.subTest(step=number):
                state = nrbpf.State.load(example("counter"), b"")
                steps = Steps(number, lambda: others(state))  # noqa: B023  (it runs in this turn)
                steps.run(lambda: free(state))  # noqa: B023
                self.assertEqual(counted.ended, 1)
            if steps.is_over:
                self.assertGreater(number, 1)
                return


class Posted(unittest.TestCase):
    def test_the_later_of_two_ends_first(self):
        """It may have to wait for the earlier one, which the same thread has posted."""

        def count(node):
            with store.attach(node) as session:
                while not stop.is_set():
                    session.update(bump, u32(3))
                    made.append(1)

        stop, made, both = threading.Event(), [], 0
        with nrbpf.open(example("counter"), nodes=2, slots=4) as store:
            bump, peek = store.program("bump"), store.program("peek")
            threads = [threading.Thread(target=count, args=(node,)) for node in (0, 0, 1)]
            for thread in threads:
                thread.start()
            for _ in range(20000):
                with store.attach() as first, store.attach() as later:
                    told = [session.try_update(bump, u32(3)) for session in (first, later)]
                    made.extend(1 for it in told if it is not nrbpf.BUSY)
                    for session, it in zip((first, later), told, strict=True):
                        if it is nrbpf.POSTED:
                            with self.assertRaises(nrbpf.HostError) as why:
                                session.read(peek, u32(3))
                            self.assertEqual(why.exception.status, nrbpf.Status.UNANSWERED)
                both += told == [nrbpf.POSTED] * 2
                if both == 60:
                    break
            stop.set()
            for thread in threads:
                thread.join()
            with store.attach() as session:
                self.assertEqual(session.read(peek, u32(3)), (len(made), len(made)))


class Lost(unittest.TestCase):
    """What nothing refers to any more."""

    def collects(self, where):
        """The collector finds a session that has posted something, while another one waits: where the library polls the
        one of these numbers. What is polled then is answered, and the other one after it."""

        def post(at, *_):
            posted.append(ctypes.cast(at, ctypes.c_void_p).value)
            return nrbpf.POSTED.value

        def poll(at, _):
            number = posted.index(ctypes.cast(at, ctypes.c_void_p).value)
            if number == where:
                gc.collect()
                answered.append(number)
            return 0 if answered else nrbpf.POSTED.value

        posted, answered, waited = [], [], []
        gc.disable()
        self.addCleanup(gc.enable)
        with mock.patch.multiple(_native.library, nrbpf_try_update=post, nrbpf_poll=poll):
            store = nrbpf.open(example("counter"), slots=2)
            lost, own = store.attach(), store.attach()
            self.assertEqual([it.try_update(0, u32(3)) for it in (lost, own)], [nrbpf.POSTED] * 2)
            lost.itself = lost
            del lost
            thread = threading.Thread(target=lambda: waited.append(own.wait()), daemon=True)
            thread.start()
            thread.join(20)
            self.assertEqual(len(waited), 1)
            own.detach()
            until = time.monotonic() + 20
            while time.monotonic() < until:  # another thread gives it back
                with contextlib.suppress(nrbpf.CallError):
                    store.close()
                    return
                time.sleep(0.001)
        self.fail("the lost session is not given back")

    def test_the_collector_runs_where_the_lost_one_is_polled(self):
        self.collects(0)

    def test_the_collector_runs_where_another_one_is_polled(self):
        self.collects(1)

    def test_a_forked_child_ends_nothing(self):
        store = nrbpf.open(example("counter"), slots=2)
        session, lane, state = store.attach(), store.attach_lane(0, 1), store.new_state()
        child = os.fork()
        if not child:
            try:
                for name in ("detach", "detach_lane", "state_free", "close"):
                    setattr(_native.library, f"nrbpf_{name}", lambda *_: os._exit(1))
                del store, session, lane, state
                gc.collect()
                os._exit(0)
            finally:
                os._exit(2)
        self.assertEqual(os.waitpid(child, 0)[1], 0)
        lane.detach()
        session.detach()
        state.free()
        store.close()


if __name__ == "__main__":
    unittest.main()
