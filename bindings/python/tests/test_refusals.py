"""What is refused, with its status, and what is not there any more."""

import copy
import gc
import pickle
import unittest
import warnings

import nrbpf
from nrbpf import Status
from tests.fixture import FIVE, LONG_ARGUMENTS, NAMES_MAP_0, NOTHING_IN_R0, counter, example, five_in, u32

BUMP, PEEK = "examples/counter/bump.hex", "examples/counter/peek.hex"
ARRAY = "map array 8 16\n"


class Refusals(unittest.TestCase):
    def refuses(self, status, call, *given, inner="", line=0, slot=0, **named):
        with self.assertRaises(nrbpf.Error) as refused:
            call(*given, **named)
        why = refused.exception
        self.assertEqual((why.status, why.inner, why.line, why.slot), (status, inner, line, slot), str(why))
        self.assertTrue(isinstance(why.status, Status))
        self.assertIn(f"{why.code}: ", str(why))
        return why


class Openings(Refusals):
    def test_manifests(self):
        files = example("counter").files
        rows = [
            ("", "", Status.BAD_LINE, "", 1, 0),
            ("map array 08 16\n", "", Status.BAD_LINE, "", 1, 0),
            (ARRAY + "program it update 4 none", "", Status.BAD_LINE, "", 2, 0),
            (ARRAY + "program it update 4 other\n", "b7 0", Status.BAD_DIGITS, "", 2, 0),
            (ARRAY + "program it update 4 other\n", "", Status.FILE_NOT_DECODED, "D2", 2, 0),
            (ARRAY + "program it update 4 other\n", "9500000000000000", Status.FILE_NOT_ACCEPTED, "V6", 2, 0),
            (ARRAY + f"program it read 4 {BUMP}\n", "", Status.FILE_NOT_ACCEPTED, "V18", 2, 7),
            ("map array 256 65536\nmap array 1 1\n", "", Status.TOO_MUCH, "", 2, 0),
            (b"map array \xff 16\n", "", Status.NOT_UTF8, "", 0, 0),
        ]
        for text, other, status, inner, line, slot in rows:
            with self.subTest(text):
                manifest = nrbpf.Manifest(text, {**files, "other": other})
                why = self.refuses(status, nrbpf.open, manifest, inner=inner, line=line, slot=slot)
                self.assertIsInstance(why, nrbpf.HostError if status == Status.NOT_UTF8 else nrbpf.ManifestError)

    def test_text(self):
        manifest = nrbpf.Manifest(ARRAY + f"program it read 4 {BUMP}\n", example("counter").files)
        why = self.refuses(Status.FILE_NOT_ACCEPTED, nrbpf.open, manifest, inner="V18", line=2, slot=7)
        self.assertTrue(str(why).startswith("line 2: C4: ") and "slot 7: V18: " in str(why), str(why))

    def test_sizes(self):
        outside = {"nodes": (0, 9), "slots": (0, 17), "window": (15, 1048577), "spare": (4097,)}
        outside["long_bytes"] = (16_385, (1 << 32) - 1)
        for name, number in ((name, number) for name, numbers in outside.items() for number in numbers):
            with self.subTest(name, number=number):
                self.refuses(Status.OUT_OF_LIMITS, nrbpf.open, example("counter"), **{name: number})
        wider = {"key": 65, "value": 16_385, "entries": (1 << 31) + 1, "bytes": (1 << 40) + 1, "argument": 16_385}
        for limits in ({name: number} for name, number in wider.items()):
            with self.subTest(limits=limits):
                self.refuses(Status.OUT_OF_LIMITS, nrbpf.open, example("counter"), limits=nrbpf.LARGE._replace(**limits))
        numbers = [nrbpf.Limits(key=0), nrbpf.Limits(argument=0), nrbpf.Limits(argument=1 << 32)]
        others = [{"nodes": -1}, {"limit": 1 << 32}, {"long_bytes": -1}, {"long_bytes": 1 << 32}]
        for sizes in (*others, *({"limits": limits} for limits in numbers)):
            with self.assertRaises(ValueError):
                nrbpf.open(example("counter"), **sizes)

    def test_limits(self):
        past = nrbpf.Manifest("map hash 8 8 65537\n", {})
        self.refuses(Status.BAD_LINE, nrbpf.open, past, line=1)
        nrbpf.open(past, limits=nrbpf.LARGE).close()
        long = nrbpf.Manifest("map array 16384 2\n", {})
        self.refuses(Status.BAD_LINE, nrbpf.open, long, line=1)
        with nrbpf.open(long, limits=nrbpf.LARGE) as store, store.attach() as session:
            self.assertEqual(session.get(0, bytes(4)), (0, bytes(16_384)))
            self.assertEqual([value for _, value in session.scan(0)], [bytes(16_384)] * 2)
        self.refuses(Status.BAD_LINE, nrbpf.open, nrbpf.Manifest("map hash 8 8 17\n", {}), limits=nrbpf.Limits(entries=16), line=1)

    def test_limits_of_arguments(self):
        def of(length):
            return nrbpf.Manifest(f"{ARRAY}program long update {length} five\n", {"five": FIVE.hex()})

        self.refuses(Status.BAD_LINE, nrbpf.open, of(65), line=2)
        self.refuses(Status.BAD_LINE, nrbpf.open, of(16_384), line=2)
        self.refuses(Status.BAD_LINE, nrbpf.open, of(16_385), limits=nrbpf.LARGE, line=2)
        self.refuses(Status.BAD_LINE, nrbpf.open, of(9), limits=nrbpf.Limits(argument=8), line=2)
        for length, limits in ((64, nrbpf.STANDARD), (16_384, nrbpf.LARGE), (8, nrbpf.Limits(argument=8))):
            nrbpf.open(of(length), limits=limits).close()

    def test_states(self):
        with nrbpf.State.load(example("counter"), f"p read 0 {FIVE.hex()}\n".encode(), spare=1) as state:
            self.refuses(Status.OTHER_STATE, nrbpf.open, nrbpf.Manifest("map array 8 15\n", {}), state=state, spare=1)
            self.refuses(Status.OTHER_STATE, nrbpf.open, example("counter"), state=state)
            self.refuses(Status.BAD_LINE, nrbpf.open, nrbpf.Manifest("", {}), state=state, line=1)
            nrbpf.open(example("counter"), state=state, spare=1).close()

    def test_states_of_long_programs(self):
        """The first program has one slot more than each may have, the second one byte more of an argument."""
        for line, long_bytes in ((f"p read 0 {five_in(25).hex()}\n", 200), (f"p read 65 {FIVE.hex()}\n", 65)):
            sizes = {"spare": 1, "long_bytes": long_bytes}
            with self.subTest(long_bytes), nrbpf.State.load(example("counter"), line.encode(), **sizes) as state:
                for fewer in (0, long_bytes - 1):
                    named = {"spare": 1, "long_bytes": fewer}
                    self.refuses(Status.OTHER_STATE, nrbpf.open, example("counter"), state=state, **named)
                    load = nrbpf.State.load, example("counter"), line.encode()
                    self.refuses(Status.BAD_DUMP_LINE, *load, line=1, **named)
                nrbpf.open(example("counter"), state=state, **sizes).close()


class Dumps(Refusals):
    def test_dumps(self):
        manifest = nrbpf.Manifest(ARRAY + "map hash 4 4 2\n", {})
        one, seven = "0100000000000000", "07000000"
        rows = [
            (f"0 0000000A {one}\n", Status.BAD_DUMP_LINE, "", 1),
            (f"0 00000000 {one}", Status.BAD_DUMP_LINE, "", 1),
            (f"0 00000000 {one}\n\n", Status.BAD_DUMP_LINE, "", 2),
            (f"2 00000000 {one}\n", Status.BAD_DUMP_MAP, "", 1),
            (f"0 10000000 {one}\n", Status.BAD_DUMP_KEY, "", 1),
            (f"1 000000 {seven}\n", Status.BAD_DUMP_KEY, "", 1),
            (f"0 00000000 {seven}\n", Status.BAD_DUMP_VALUE, "", 1),
            (f"0 01000000 {one}\n0 00000000 {one}\n", Status.BAD_DUMP_ORDER, "", 2),
            ("0 00000000 0000000000000000\n", Status.BAD_DUMP_ZEROS, "", 1),
            ("".join(f"1 {u32(key).hex()} {seven}\n" for key in range(3)), Status.DUMP_TOO_MANY_KEYS, "", 3),
            (f"p read 0 {NOTHING_IN_R0.hex()}\n", Status.DUMP_BAD_PROGRAM, "V6", 1),
            ("p read 0 95\n", Status.DUMP_BAD_PROGRAM, "D1", 1),
            (f"p read 0 {FIVE.hex()}\n" * 2, Status.DUMP_TOO_MANY_PROGRAMS, "", 2),
        ]
        for text, status, inner, line in rows:
            with self.subTest(text):
                why = self.refuses(status, nrbpf.State.load, manifest, text.encode(), spare=1, inner=inner, line=line)
                self.assertIsInstance(why, nrbpf.DumpError)

    def test_what_else_is_loaded(self):
        self.refuses(Status.OUT_OF_LIMITS, nrbpf.State.load, example("counter"), b"", spare=4097)
        self.refuses(Status.OUT_OF_LIMITS, nrbpf.State.load, example("counter"), b"", long_bytes=16_385)
        self.refuses(Status.BAD_LINE, nrbpf.State.load, nrbpf.Manifest("", {}), b"", line=1)
        self.refuses(Status.NOT_UTF8, nrbpf.State.load, example("counter"), b"\xff\n")


class Calls(Refusals):
    def test_runs(self):
        with counter(spare=1) as (_, session, bump, peek):
            for call, right, wrong in (
                (session.update, bump, peek),
                (session.try_update, bump, peek),
                (session.read, peek, bump),
                (session.try_read, peek, bump),
            ):
                with self.subTest(call):
                    for length in (0, 3, 5, 64, 65, 1000):
                        self.refuses(Status.ARGUMENT_LENGTH, call, right, bytes(length))
                    self.refuses(Status.OTHER_MODE, call, wrong, u32(3))
                    for number in (3, 65535, 65536 + right, 2**64 - 7, -1):
                        self.refuses(Status.UNKNOWN_PROGRAM, call, number, u32(3))
            self.assertEqual(session.read(peek, u32(3)), (0, 0))

    def test_long_arguments(self):
        """One byte more than the largest limits allow."""
        right = bytes(16_384)
        with nrbpf.open(LONG_ARGUMENTS, slots=2, limits=nrbpf.LARGE) as store:
            with store.attach() as session, store.attach_lane(slots=1) as lane:
                for length in (64, 192, 16_383, 16_385, 100_000):
                    wrong = bytes(length)
                    for call in (session.update, session.try_update):
                        self.refuses(Status.ARGUMENT_LENGTH, call, 0, wrong)
                    for call in (session.read, session.try_read):
                        self.refuses(Status.ARGUMENT_LENGTH, call, 1, wrong)
                    self.refuses(Status.ARGUMENT_LENGTH, lane.update_each, [(0, wrong)])
                    self.refuses(Status.ARGUMENT_LENGTH, session.read_each, [(1, right), (1, wrong)], slot=1)
                self.assertEqual(session.read(1, right), (0, 0))

    def test_installs(self):
        with counter(spare=1) as (_, session, _, peek):
            for call in (session.install, session.try_install):
                self.refuses(Status.TOO_LARGE, call, nrbpf.Mode.UPDATE, 4, bytes(193))
                self.refuses(Status.TOO_LARGE, call, nrbpf.Mode.UPDATE, 4, bytes(194))
                self.refuses(Status.TOO_LARGE, call, nrbpf.Mode.READ, 65, FIVE)
                self.refuses(Status.NOT_DECODED, call, nrbpf.Mode.READ, 0, b"", inner="D2")
                opcode_13 = FIVE[:8] + b"\x0d" + bytes(7)
                self.refuses(Status.NOT_DECODED, call, nrbpf.Mode.READ, 0, opcode_13, inner="D4", slot=1)
                self.refuses(Status.NOT_ACCEPTED, call, nrbpf.Mode.READ, 0, NOTHING_IN_R0, inner="V6")
                self.refuses(Status.BAD_CALL, call, 2, 0, FIVE)
            self.assertEqual(session.read(peek, u32(3)), (0, 0))

    def test_long_installs(self):
        """One slot too many, and one byte too many of an argument, by how much a store allows."""
        for long_bytes, slots, argument in ((0, 24, 64), (100, 24, 100), (200, 25, 200), (16_384, 2048, 16_384)):
            sizes = {"window": 16, "spare": 1, "long_bytes": long_bytes}
            with self.subTest(long_bytes=long_bytes), counter(**sizes) as (_, session, _, _):
                for call in (session.install, session.try_install):
                    self.refuses(Status.TOO_LARGE, call, nrbpf.Mode.READ, 0, five_in(slots + 1))
                    self.refuses(Status.TOO_LARGE, call, nrbpf.Mode.READ, argument + 1, FIVE)
                for call in (session.update, session.try_update, session.read, session.try_read):
                    self.refuses(Status.ARGUMENT_LENGTH, call, 2, bytes(argument + 1))
                self.assertEqual(session.install(nrbpf.Mode.READ, argument, five_in(slots)), (0, 2))
                self.assertEqual(session.read(2, bytes(argument)), (1, 5))

    def test_installs_within(self):
        with counter(spare=1) as (_, session, _, peek):
            for call in (session.install_within, session.try_install_within):
                for maps in ((), [1], {-1, 15, 16}):
                    self.refuses(Status.NOT_ACCEPTED, call, maps, nrbpf.Mode.READ, 0, NAMES_MAP_0, inner="V16")
                self.refuses(Status.NOT_ACCEPTED, call, [0], nrbpf.Mode.READ, 0, NOTHING_IN_R0, inner="V6")
                self.refuses(Status.TOO_LARGE, call, [0], nrbpf.Mode.READ, 65, FIVE)
            self.assertEqual(session.read(peek, u32(3)), (0, 0))

    def test_more_reads(self):
        with counter() as (_, session, bump, peek):
            self.refuses(Status.UNKNOWN_MAP, session.get, 1, u32(3))
            self.refuses(Status.UNKNOWN_MAP, session.get, -1, u32(3))
            self.refuses(Status.KEY_LENGTH, session.get, 0, b"123")
            self.refuses(Status.UNKNOWN_MAP, session.scan_page, 1)
            self.refuses(Status.UNKNOWN_PLACE, session.scan_page, 0, 16)
            self.refuses(Status.UNKNOWN_PLACE, session.scan_page, 0, 1 << 32)
            self.refuses(Status.OTHER_MODE, session.read_each, [(peek, u32(3)), (bump, u32(3))], slot=1)
            self.refuses(Status.ARGUMENT_LENGTH, session.read_each, [(peek, b"")], slot=0)
            self.refuses(Status.BAD_CALL, session.read_each, [(peek, u32(3))] * 17)
            for number in (1 << 16, -1):
                self.refuses(Status.UNKNOWN_PROGRAM, session.read_each, [(peek, u32(3)), (number, b"")], slot=1)
                self.refuses(Status.OTHER_MODE, session.read_each, [(bump, u32(3)), (number, b"")], slot=0)
            pages = session.scan_page, session.try_scan_page, lambda map, room: list(session.scan(map, room=room))
            for call in pages:
                for room in (0, -1):
                    with self.assertRaisesRegex(ValueError, "^room is "):
                        call(0, room=room)

    def test_names(self):
        with nrbpf.open(example("counter")) as store:
            for name in ("nope", "bum", "bump ", "", "a" * 400):
                self.refuses(Status.UNKNOWN_PROGRAM, store.program, name)

    def test_snapshots(self):
        with counter() as (_, session, _, _):
            with nrbpf.State.load(nrbpf.Manifest("map array 8 15\n", {}), b"") as other:
                self.refuses(Status.OTHER_SIZES, session.snapshot, other)
            with nrbpf.State.load(example("counter"), b"", spare=1) as other:
                self.refuses(Status.OTHER_SIZES, session.snapshot, other)


class Errors(Refusals):
    def test_copies(self):
        manifest = nrbpf.Manifest(ARRAY + f"program it read 4 {BUMP}\n", example("counter").files)
        why = self.refuses(Status.FILE_NOT_ACCEPTED, nrbpf.open, manifest, inner="V18", line=2, slot=7)
        why.kept = "too"
        for one in (why, nrbpf.NoPlaceError(5)):
            for other in (copy.copy(one), copy.deepcopy(one), pickle.loads(pickle.dumps(one))):
                self.assertEqual((type(other), str(other), vars(other)), (type(one), str(one), vars(one)))


class Ends(Refusals):
    def test_sessions(self):
        with nrbpf.open(example("counter"), nodes=2) as store, store.attach(0) as session:
            self.refuses(Status.NO_SESSION, store.attach, 0)
            self.refuses(Status.NO_SESSION, store.attach, 2)
            self.refuses(Status.NO_SESSION, store.attach, -1)
            self.refuses(Status.NOTHING_POSTED, session.poll)
            self.refuses(Status.ATTACHED, store.close)
            self.refuses(Status.ATTACHED, store.close_into)
            session.detach()
            session.detach()
            self.refuses(Status.DETACHED, session.read, 1, u32(3))
            self.refuses(Status.DETACHED, session.try_update, 0, u32(3))
            store.attach(0).detach()

    def test_a_closed_store(self):
        store = nrbpf.open(example("counter"))
        store.close()
        store.close()
        for call in (lambda: store.program("bump"), store.attach, store.new_state, store.close_into):
            with self.assertRaises(RuntimeError):
                call()

    def test_what_is_left_is_ended(self):
        with warnings.catch_warnings(record=True) as told:
            warnings.simplefilter("always")
            store = nrbpf.open(example("counter"))
            session = store.attach()
            del store, session
            gc.collect()
        self.assertEqual([it.category for it in told], [ResourceWarning])


if __name__ == "__main__":
    unittest.main()
