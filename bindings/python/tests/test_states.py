"""States: snapshots while others go on, dumps, and stores that go on from them."""

import io
import threading
import unittest
from unittest import mock

import nrbpf
from tests.fixture import FIVE, counter, example, text_of, tried, u32

PROGRAM = f"p read 0 {FIVE.hex()}\n"


class Snapshots(unittest.TestCase):
    def test_a_snapshot_is_what_was_answered(self):
        with counter(spare=1) as (store, session, bump, _), store.new_state() as state:
            self.assertEqual(state.dump(), b"")
            self.assertEqual(session.snapshot(state), 0)
            session.update(bump, u32(0))
            session.update(bump, u32(0))
            self.assertEqual(session.snapshot(state), 2)
            self.assertEqual(state.dump().decode(), text_of("counter/state"))
            session.install(nrbpf.Mode.READ, 0, FIVE)
            self.assertEqual(state.dump().decode(), text_of("counter/state"))
            self.assertEqual(tried(session, lambda: session.try_snapshot(state)), 3)
            self.assertEqual(state.dump().decode(), text_of("counter/state") + PROGRAM)

    def test_snapshots_beside_threads(self):
        """In each the counter is the point, and points don't fall."""

        def count(node):
            with store.attach(node) as session:
                for _ in range(3000):
                    session.update(bump, u32(3))

        with counter(nodes=2, slots=2) as (store, session, bump, _), store.new_state() as state:
            threads = [threading.Thread(target=count, args=(number,)) for number in range(2)]
            for thread in threads:
                thread.start()
            last = 0
            for _ in range(100):
                point = session.snapshot(state)
                self.assertGreaterEqual(point, last)
                last = point
                self.assertEqual(state.dump(), dump_of(point))
            for thread in threads:
                thread.join()
            self.assertEqual(session.snapshot(state), 6000)
            self.assertEqual(state.dump(), dump_of(6000))


def dump_of(count):
    return f"0 03000000 {count.to_bytes(8, 'little').hex()}\n".encode() if count else b""


class Dumps(unittest.TestCase):
    def test_a_dump_is_loaded_and_dumped_the_same(self):
        text = (text_of("counter/state") + PROGRAM).encode()
        with nrbpf.State.load(example("counter"), text, spare=1) as state:
            self.assertEqual(state.dump(), text)

    def test_an_empty_dump_is_a_new_store(self):
        with nrbpf.State.load(example("counter"), b"") as state:
            self.assertEqual(state.dump(), b"")

    def test_a_large_dump_comes_in_parts(self):
        manifest = nrbpf.Manifest("map array 8 4096\n", {})
        text = "".join(sorted(f"0 {u32(key).hex()} ff00000000000000\n" for key in range(4096))).encode()
        sizes = []

        class Counts(io.BytesIO):
            def write(self, data):
                sizes.append(len(data))
                return super().write(data)

        with nrbpf.State.load(manifest, memoryview(text)) as state:
            file = Counts()
            state.dump_to(file)
        self.assertEqual(file.getvalue(), text)
        self.assertGreater(len(sizes), 1)
        self.assertLessEqual(max(sizes), 16384)

    def test_a_file_that_has_enough(self):
        class Full(io.BytesIO):
            def write(self, data):
                raise OSError("no space is left")

        with nrbpf.State.load(example("counter"), text_of("counter/state").encode()) as state:
            with self.assertRaisesRegex(OSError, "no space is left"):
                state.dump_to(Full())
            self.assertEqual(state.dump().decode(), text_of("counter/state"))

    def test_a_file_that_takes_less(self):
        class Short(io.RawIOBase):
            def __init__(self, most):
                self.most, self.taken = most, b""

            def write(self, data):
                self.taken += data[: self.most] if self.most else b""
                return min(self.most, len(data)) if self.most is not None else None

        with nrbpf.State.load(example("counter"), text_of("counter/state").encode()) as state:
            file = Short(5)
            state.dump_to(file)
            self.assertEqual(file.taken.decode(), text_of("counter/state"))
            for most in (0, None):
                with self.assertRaises(BlockingIOError):
                    state.dump_to(Short(most))

    def test_a_dump_while_the_interpreter_ends(self):
        """It begins no thread then."""
        ends = mock.patch("nrbpf._signals.start_new_thread", side_effect=RuntimeError)
        with nrbpf.State.load(example("counter"), text_of("counter/state").encode()) as state, ends:
            self.assertEqual(state.dump().decode(), text_of("counter/state"))

    def test_one_call_at_a_time(self):
        class Again(io.BytesIO):
            def write(self, data):
                state.dump()

        state = nrbpf.State.load(example("counter"), text_of("counter/state").encode())
        with state, self.assertRaisesRegex(RuntimeError, "one call at a time"):
            state.dump_to(Again())

    def test_an_ended_state(self):
        state = nrbpf.State.load(example("counter"), b"")
        state.free()
        state.free()
        with self.assertRaises(RuntimeError):
            state.dump()


class Scans(unittest.TestCase):
    def test_all_pages_are_the_dump(self):
        """A large map that has few keys, so that pages are empty, and one that has many."""
        manifest = nrbpf.Manifest("map hash 4 8 65536\n", {})
        for count in (1, 3000):
            keys = sorted(u32(number * 7) for number in range(count))
            text = "".join(f"0 {key.hex()} ff00000000000000\n" for key in keys).encode()
            with nrbpf.State.load(manifest, text) as state:
                store = nrbpf.open(manifest, state=state)
            with store, store.attach() as session:
                found = list(session.scan(0))
            self.assertEqual(sorted(found), [(key, b"\xff" + bytes(7)) for key in keys])


class Reopened(unittest.TestCase):
    def test_a_store_goes_on_from_what_another_ended_in(self):
        store = nrbpf.open(example("counter"), spare=1)
        with store.attach() as session:
            session.update(store.program("bump"), u32(3))
            session.install(nrbpf.Mode.READ, 0, FIVE)
        with store.close_into() as state:
            for nodes in (1, 2):
                other = nrbpf.open(example("counter"), nodes=nodes, spare=2, state=state)
                with other, other.attach(nodes - 1) as session:
                    self.assertEqual(session.read(other.program("peek"), u32(3)), (0, 1))
                    self.assertEqual(session.read(2), (0, 5))
                    self.assertEqual(session.update(other.program("bump"), u32(3)), (0, 2))


if __name__ == "__main__":
    unittest.main()
