"""Threads that share what each should have alone, and end what others use: each call answers or is refused, and none
reaches memory that is gone."""

import random
import threading
import unittest
import warnings

import nrbpf
from tests.fixture import FIVE, example, u32

# What a call may be told: sessions are attached (S5), all of them are (H1), or this one isn't (H2); an update is posted
# (H3), or none is (H11).
REFUSED = {"S5", "H1", "H2", "H3", "H11"}


class Shared:
    """A store, a session, a lane and a state, which any thread uses, ends and makes anew."""

    def __init__(self):
        self.manifest = example("counter")
        self.store = self.open()
        self.session, self.state = self.store.attach(), self.store.new_state()
        self.lane = self.store.attach_lane(0, 2)
        self.odd = set()

    def open(self):
        return nrbpf.open(self.manifest, nodes=2, slots=4, spare=1)

    def calls(self):
        key, store, session, lane, state = u32(3), self.store, self.session, self.lane, self.state
        return [
            store.close,
            session.detach,
            state.free,
            state.dump,
            session.poll,
            lambda: setattr(self, "store", self.open()),
            lambda: setattr(self, "session", store.attach(1)),
            lambda: setattr(self, "lane", store.attach_lane(0, 2)),
            lambda: setattr(self, "state", store.new_state()),
            lambda: setattr(self, "state", store.close_into()),
            lambda: session.update(0, key),
            lambda: session.try_update(0, key),
            lane.detach,
            lane.poll_each,
            lambda: lane.update_each([(0, key)] * 2),
            lambda: lane.try_update_each([(0, key)] * 2),
            lambda: session.read_each([(1, key)] * 16),
            lambda: session.get(0, key),
            lambda: list(session.scan(0)),
            lambda: session.install(nrbpf.Mode.READ, 0, FIVE),
            lambda: session.snapshot(state),
        ]

    def play(self, seed):
        rolls = random.Random(seed)
        for _ in range(2000):
            try:
                rolls.choice(self.calls())()
            except nrbpf.NoPlaceError:
                pass  # there is one spare place
            except nrbpf.Error as why:
                self.odd |= {why.code} - REFUSED
            except RuntimeError:
                pass  # a state takes one call at a time, or is ended, or a store is


class Misuse(unittest.TestCase):
    def test_threads_that_share_all(self):
        with warnings.catch_warnings():
            warnings.simplefilter("ignore", ResourceWarning)
            shared = Shared()
            threads = [threading.Thread(target=shared.play, args=(seed,)) for seed in range(6)]
            for thread in threads:
                thread.start()
            for thread in threads:
                thread.join()
            odd = shared.odd
            del shared, threads
        self.assertEqual(odd, set())


if __name__ == "__main__":
    unittest.main()
