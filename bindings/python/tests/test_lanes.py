"""Lists of updates by lanes: what they answer and refuse, and threads."""

import contextlib
import threading
import unittest

import nrbpf
from tests.fixture import counter, example, u32


class Lists(unittest.TestCase):
    def test_answers(self):
        with counter(slots=5) as (store, session, bump, peek), store.attach_lane(slots=4) as lane:
            self.assertEqual(lane.slots, 4)
            told = lane.update_each([(bump, u32(3)), (bump, bytearray(u32(3))), (bump, u32(5))])
            self.assertEqual(told, [(0, 1), (1, 2), (2, 1)])
            self.assertEqual(lane.try_update_each([(bump, u32(3))] * 2), [(3, 3), (4, 4)])  # nobody is in the way
            self.assertEqual(lane.update_each([]), [])
            self.assertEqual(session.read(peek, u32(3)), (5, 4))

    def test_refusals(self):
        with counter(slots=5) as (store, session, bump, peek), store.attach_lane(slots=4) as lane:
            good, bad = (bump, u32(3)), (bump, b"123")
            for calls, code, slot in (
                ([good, (9, u32(3)), bad], "S1", 1),
                ([good, good, (1 << 16, u32(3))], "S1", 2),
                ([good, (-1, u32(3))], "S1", 1),
                ([bad, (1 << 16, u32(3))], "S2", 0),
                ([good, good, bad], "S2", 2),
                ([(peek, u32(3)), good], "S3", 0),
                ([good] * 5, "H5", 0),
            ):
                for ask in (lane.update_each, lane.try_update_each):
                    with self.assertRaises(nrbpf.Error) as why:
                        ask(calls)
                    self.assertEqual((why.exception.code, why.exception.slot), (code, slot))
            with self.assertRaises(nrbpf.HostError) as why:
                lane.poll_each()
            self.assertEqual(why.exception.status, nrbpf.Status.NOTHING_POSTED)
            self.assertEqual(session.read(peek, u32(3)), (0, 0))

    def test_slots(self):
        with counter(slots=3) as (store, _session, _bump, _peek):
            for node, slots, code in ((0, 3, "H1"), (1, 1, "H1"), (0, 0, "H5"), (0, 17, "H5"), (0, 1 << 32, "H5")):
                with self.assertRaises(nrbpf.HostError) as why:
                    store.attach_lane(node, slots)
                self.assertEqual(why.exception.code, code)
            lane = store.attach_lane(0, 2)
            with self.assertRaises(nrbpf.CallError):
                store.close()
            lane.detach()
            lane.detach()
            with self.assertRaises(nrbpf.HostError) as why:
                lane.update_each([])
            self.assertEqual(why.exception.status, nrbpf.Status.DETACHED)

    def test_long_arguments(self):
        """Arguments that have no room where a lane keeps them are refused as others are, and the lane goes on."""
        with counter(slots=5) as (store, session, bump, peek), store.attach_lane(slots=2) as lane:
            with self.assertRaises(nrbpf.CallError) as why:
                lane.update_each([(bump, u32(3)), (bump, bytes(5000))])
            self.assertEqual((why.exception.code, why.exception.slot), ("S2", 1))
            self.assertEqual(lane.update_each([(bump, u32(3)), (bump, memoryview(u32(3)))]), [(0, 1), (1, 2)])
            self.assertEqual(session.read(peek, u32(3)), (2, 2))

    def test_full(self):
        with counter(slots=5, limit=3) as (store, _session, bump, _peek), store.attach_lane(slots=4) as lane:
            self.assertEqual(lane.update_each([(bump, u32(1))] * 4), [(0, 1), (1, 2), (2, 3), None])

    def test_threads(self):
        def ask(lane, bump):
            calls = [(bump, u32(1))] * 4
            for turn in range(500):
                told = lane.try_update_each(calls) if turn % 2 else nrbpf.BUSY
                if told is nrbpf.POSTED:
                    told = lane.wait_each()
                elif told is nrbpf.BUSY:
                    told = lane.update_each(calls)
                points = [it.point for it in told]
                odd.extend(points if points != sorted(set(points)) else [])

        odd = []
        with nrbpf.open(example("counter"), nodes=2, slots=8) as store, contextlib.ExitStack() as ends:
            bump, peek = store.program("bump"), store.program("peek")
            lanes = [ends.enter_context(store.attach_lane(node, 4)) for node in (0, 1, 0)]
            threads = [threading.Thread(target=ask, args=(lane, bump)) for lane in lanes]
            for thread in threads:
                thread.start()
            for thread in threads:
                thread.join()
            with store.attach(1) as session:
                self.assertEqual(session.read(peek, u32(1)), (6000, 6000))
        self.assertEqual(odd, [])

    def test_posted(self):
        """A lane that is left while its list is out is given back once that is answered."""
        with counter(slots=6) as (store, session, bump, peek):
            stop = threading.Event()
            other = store.attach()

            def count():
                while not stop.is_set():
                    other.update(bump, u32(4))

            thread, made = threading.Thread(target=count), 0
            thread.start()
            for _ in range(200):
                with store.attach_lane(slots=4) as lane:
                    made += 0 if lane.try_update_each([(bump, u32(3))] * 4) is nrbpf.BUSY else 4
            stop.set()
            thread.join()
            other.detach()
            self.assertEqual(session.read(peek, u32(3)).reply, made)


if __name__ == "__main__":
    unittest.main()
