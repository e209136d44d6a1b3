"""What calls answer: the rows of the examples, which `nrbpf run` answers too."""

import re
import threading
import unittest

import nrbpf
from tests.fixture import FIVE, LAST, LONG_ARGUMENTS, NAMES_MAP_0, counter, example, five_in, text_of, tried, u32


def run(name, spare=0, state=None):
    """The lines that a script is answered with, without the steps of `nrbpf run`, by a store of one session."""
    with nrbpf.open(example(name), spare=spare, state=state) as store, store.attach() as session:
        lines = (line for line in text_of(f"{name}/script").splitlines() if line and not line.startswith("#"))
        return [answer(store, session, line.split(" ")) for line in lines]


def told(kind, answer):
    return f"{kind} {answer.point} reply {answer.reply}"


def called(store, session, words):
    """What a line answers: an install, a call by a number, or one by a name, which takes either mode."""
    argument = bytes.fromhex(words[-1])
    if words[0] == "install":
        return told("install", session.install(nrbpf.Mode[words[1].upper()], int(words[2]), argument))
    if words[0] == "invoke":
        return told("update", session.update(int(words[1]), argument))
    if words[0] == "read":
        return told("read", session.read(int(words[1]), argument))
    program = store.program(words[0])
    try:
        return told("update", session.update(program, argument))
    except nrbpf.CallError as why:
        if why.status != nrbpf.Status.OTHER_MODE:
            raise
    return told("read", session.read(program, argument))


def answer(store, session, words):
    try:
        return called(store, session, words)
    except nrbpf.CallError as why:
        return f"refused {why.code}" + (f" {why.inner} slot {why.slot}" if why.inner else "")


def rows(name):
    return [re.sub(r" steps \d+$", "", line) for line in text_of(name).splitlines()]


class Examples(unittest.TestCase):
    def test_counter(self):
        self.assertEqual(run("counter"), rows("counter/run.out"))

    def test_key_value(self):
        self.assertEqual(run("key_value"), rows("key_value/run.out"))

    def test_install(self):
        self.assertEqual(run("install", spare=4), rows("install/run.out"))

    def test_counter_goes_on_from_a_dump(self):
        with nrbpf.State.load(example("counter"), text_of("counter/state").encode()) as state:
            told = run("counter", state=state)
        self.assertEqual(told, rows("counter/run_on.out")[: len(told)])


class Reads(unittest.TestCase):
    def test_signs(self):
        with counter() as (_, session, bump, peek):
            self.assertEqual(session.update(bump, u32(1)).signed, 1)
            self.assertEqual(session.read(peek, u32(16)).signed, -1)
        for reply, signed in ((2**64 - 2, -2), (2**63, -(2**63)), (2**63 - 1, 2**63 - 1)):
            self.assertEqual(nrbpf.Answer(0, reply).signed, signed)

    def test_get(self):
        with nrbpf.open(example("key_value")) as store, store.attach() as session:
            session.update(store.program("put"), u32(1) + u32(7))
            self.assertEqual(session.get(0, u32(1)), (1, u32(7)))
            self.assertEqual(session.get(0, u32(2)), (1, None))
            self.assertEqual(tried(session, lambda: session.try_get(0, bytearray(u32(1)))), (1, u32(7)))

    def test_get_of_an_array(self):
        with counter() as (_, session, bump, _):
            session.update(bump, u32(3))
            self.assertEqual(session.get(0, u32(3)), (1, (1).to_bytes(8, "little")))
            self.assertEqual(session.get(0, u32(16)), (1, None))

    def test_scan(self):
        with nrbpf.open(example("key_value")) as store, store.attach() as session:
            put = store.program("put")
            self.assertEqual(list(session.scan(0)), [])
            session.update(put, u32(1) + u32(7))
            session.update(put, u32(2) + u32(8))
            self.assertEqual(dict(session.scan(0)), {u32(1): u32(7), u32(2): u32(8)})
            self.assertEqual(dict(session.scan(0, room=1)), {u32(1): u32(7), u32(2): u32(8)})

    def test_pages(self):
        with counter() as (_, session, bump, _):
            session.update(bump, u32(5))
            whole = [(u32(key), (key == 5).to_bytes(8, "little")) for key in range(16)]
            self.assertEqual(session.scan_page(0, room=16), (1, whole, None))
            self.assertEqual(session.scan_page(0, 4, room=4), (1, whole[4:8], 8))
            self.assertEqual(tried(session, lambda: session.try_scan_page(0, 8, room=100)), (1, whole[8:], None))

    def test_read_each(self):
        with counter() as (_, session, bump, peek):
            session.update(bump, u32(1))
            session.update(bump, u32(1))
            questions = [(peek, u32(1)), (peek, u32(2)), (peek, u32(16))]
            self.assertEqual(session.read_each(questions), (2, [2, 0, 2**64 - 1]))
            self.assertEqual(tried(session, lambda: session.try_read_each(questions)), (2, [2, 0, 2**64 - 1]))
            self.assertEqual(session.read_each([]), (2, []))
            self.assertEqual(session.read_each([(peek, u32(1))] * 16), (2, [2] * 16))


class LongArguments(unittest.TestCase):
    def test_two_nodes(self):
        argument = bytes((k + (k >> 8)) & 255 for k in range(16_384))
        tail = int.from_bytes(argument[16_376:], "little")
        with nrbpf.open(LONG_ARGUMENTS, nodes=2, slots=2, limits=nrbpf.LARGE) as store:
            with store.attach(0) as one, store.attach(1) as other, store.attach_lane(0, 1) as lane:
                self.assertEqual(one.update(0, argument), (0, 0))
                self.assertEqual(other.get(0, argument[:4]), (1, argument[4:]))
                self.assertEqual(other.read(1, argument), (1, tail))
                self.assertEqual(lane.update_each([(0, argument)]), [(1, 0)])
                self.assertEqual(other.read_each([(1, argument), (1, bytes(16_384))]), (2, [tail, 0]))
                self.assertEqual(other.program_info(0).facts.argument_len, 16_384)


class LongPrograms(unittest.TestCase):
    ARGUMENT = bytes((k + (k >> 8)) & 255 for k in range(16_384))
    SIZES = {"nodes": 2, "window": 16, "spare": 4, "long_bytes": 16_384}

    def has_all(self, store):
        """Both nodes have the three programs, each with the slots and the argument that it was installed with."""
        tail = int.from_bytes(self.ARGUMENT[16_376:], "little")
        for node in (0, 1):
            with store.attach(node) as session:
                for number, slots, argument, reply in ((2, 2048, b"", 5), (3, 2, self.ARGUMENT, tail), (4, 24, b"", 5)):
                    self.assertEqual(session.read(number, argument).reply, reply)
                    facts = session.program_info(number).facts
                    self.assertEqual(facts, nrbpf.ProgramFacts(nrbpf.Mode.READ, len(argument), slots, frozenset()))

    def test_two_nodes(self):
        with nrbpf.open(example("counter"), **self.SIZES) as store:
            with store.attach(0) as one, store.attach(1) as other:
                self.assertEqual(one.install(nrbpf.Mode.READ, 0, five_in(2048)), (0, 2))
                told = tried(other, lambda: other.try_install(nrbpf.Mode.READ, 16_384, LAST))
                self.assertEqual(told, (1, 3))
                self.assertEqual(one.install_within((), nrbpf.Mode.READ, 0, five_in(24)), (2, 4))
                self.assertEqual(one.install(nrbpf.Mode.UPDATE, 16_384, LAST), (3, 5))
                tail = int.from_bytes(self.ARGUMENT[16_376:], "little")
                self.assertEqual(other.update(5, self.ARGUMENT), (4, tail))
                for index in range(100):
                    with self.assertRaises(nrbpf.NoPlaceError) as none:
                        tried(one, lambda: one.try_install(nrbpf.Mode.READ, 0, five_in(2048)))
                    self.assertEqual(none.exception.point, 5 + 2 * index)
                    self.assertEqual(other.update(5, self.ARGUMENT), (6 + 2 * index, tail))
            self.has_all(store)

    def test_stores_go_on_from_a_state_and_its_dump(self):
        store = nrbpf.open(example("counter"), **self.SIZES)
        with store.attach() as session:
            for length, program in ((0, five_in(2048)), (16_384, LAST), (0, five_in(24))):
                session.install(nrbpf.Mode.READ, length, program)
        lines = (f"p read 0 {five_in(2048).hex()}", f"p read 16384 {LAST.hex()}", f"p read 0 {five_in(24).hex()}")
        text = "".join(f"{line}\n" for line in lines).encode()
        with store.close_into() as state, nrbpf.State.load(
            example("counter"), text, spare=4, long_bytes=16_384
        ) as loaded:
            for on in (state, loaded):
                self.assertEqual(on.dump(), text)
                with nrbpf.open(example("counter"), **self.SIZES, state=on) as other:
                    self.has_all(other)


class Facts(unittest.TestCase):
    # Puts its argument under the argument's first byte, in seven slots.
    PUT = "bf12000000000000bf1300000000000018510000000000000000000000000000b70400000000000085000000020000009500000000000000"

    def test_what_a_store_is(self):
        text = "map hash 1 2 16\nmap array 8 4\nprogram put update 2 put.hex\n"
        sizes = {"slots": 2, "window": 64, "spare": 1, "long_bytes": 200}
        with nrbpf.open(nrbpf.Manifest(text, {"put.hex": self.PUT}), **sizes) as store:
            self.assertEqual(store.info(), nrbpf.StoreInfo(1, 2, 64, nrbpf.ENDLESS, 1, 2, 1, 200))
            shapes = (nrbpf.MapShape("hash", 1, 2, 16), nrbpf.MapShape("array", 4, 8, 4))
            self.assertEqual(store.maps, shapes)
            with store.attach() as session:
                session.update(0, b"\7\11")
                self.assertEqual(session.map_info(0), nrbpf.MapInfo(1, shapes[0], 1))
                self.assertEqual(tried(session, lambda: session.try_map_info(1)), nrbpf.MapInfo(1, shapes[1], 4))
                facts = nrbpf.ProgramFacts(nrbpf.Mode.UPDATE, 2, 7, frozenset({0}))
                self.assertEqual(session.program_info(0), nrbpf.ProgramInfo(1, False, "put", facts))
                self.assertEqual(session.program_info(1), nrbpf.ProgramInfo(1, True, None, None))
                session.install(nrbpf.Mode.READ, 5, FIVE)
                facts = nrbpf.ProgramFacts(nrbpf.Mode.READ, 5, 2, frozenset())
                told = tried(session, lambda: session.try_program_info(1))
                self.assertEqual(told, nrbpf.ProgramInfo(2, True, None, facts))
                for call, number, status in (
                    (session.map_info, 2, nrbpf.Status.UNKNOWN_MAP),
                    (session.try_map_info, 1 << 32, nrbpf.Status.UNKNOWN_MAP),
                    (session.program_info, 2, nrbpf.Status.UNKNOWN_PROGRAM),
                    (session.try_program_info, -1, nrbpf.Status.UNKNOWN_PROGRAM),
                ):
                    with self.assertRaises(nrbpf.CallError) as refused:
                        call(number)
                    self.assertEqual(refused.exception.status, status)

    def test_what_it_has_done(self):
        with counter(nodes=2, slots=1) as (store, session, bump, _):
            for _ in range(3):
                session.update(bump, u32(3))
            with store.attach(1) as other:
                told = nrbpf.Counts(3, 3, 3, 3, 0, updates=3, waits=0, batches=0, batched=0, largest=0, node=0)
                self.assertEqual(session.stats(), told)
                behind = tried(other, other.try_stats)
                self.assertEqual((behind.completed, behind.tail, behind.lag, behind.node), (3, 0, 3, 1))


class Tries(unittest.TestCase):
    def test_updates_and_reads(self):
        with counter(nodes=2, slots=2) as (_, session, bump, peek):
            for index in range(100):
                told = tried(session, lambda: session.try_update(bump, u32(3)))
                self.assertEqual(told, (index, index + 1))
            self.assertEqual(tried(session, lambda: session.try_read(peek, u32(3))), (100, 100))

    def test_install(self):
        with counter(spare=1) as (_, session, _, _):
            told = tried(session, lambda: session.try_install(nrbpf.Mode.READ, 0, FIVE))
            self.assertEqual(told, (0, 2))
            self.assertEqual(session.read(told.reply), (1, 5))
            for point in range(1, 100):
                with self.assertRaises(nrbpf.NoPlaceError) as none:
                    if point % 2:
                        session.install(nrbpf.Mode.READ, 0, FIVE)
                    else:
                        tried(session, lambda: session.try_install_within((), nrbpf.Mode.READ, 0, FIVE))
                self.assertEqual((none.exception.point, none.exception.status, none.exception.code), (point, 0, ""))
                self.assertEqual(str(none.exception), "there is no free place for the program")

    def test_install_within(self):
        with counter(spare=2) as (_, session, _, _):
            self.assertEqual(session.install_within({0, 15, 99}, nrbpf.Mode.READ, 0, NAMES_MAP_0), (0, 2))
            told = tried(session, lambda: session.try_install_within((), nrbpf.Mode.READ, 0, FIVE))
            self.assertEqual(told, (1, 3))
            self.assertEqual(session.read(told.reply), (2, 5))

    def test_beside_others(self):
        """A session tries beside three threads that are in its way: what is posted is made once, and until it is
        answered nothing else is."""
        with counter(slots=4) as (store, session, bump, peek):
            done, made = threading.Event(), []
            threads = [threading.Thread(target=count_until, args=(store, bump, done, made)) for _ in range(3)]
            for thread in threads:
                thread.start()
            mine = posted = 0
            while mine < 20_000 and not posted:
                told = session.try_update(bump, u32(3))
                posted += told is nrbpf.POSTED
                mine += told is not nrbpf.BUSY
            done.set()
            if posted:
                with self.assertRaises(nrbpf.HostError) as refused:
                    session.read(peek, u32(3))
                self.assertEqual(refused.exception.status, nrbpf.Status.UNANSWERED)
                with self.assertRaises(nrbpf.HostError):
                    session.detach()
                session.wait()
            for thread in threads:
                thread.join()
            self.assertEqual(session.read(peek, u32(3)), (mine + sum(made), mine + sum(made)))

    def test_no_place_beside_others(self):
        """An install without a place raises too if it was posted."""
        with counter(slots=4) as (store, session, bump, _):
            done, made = threading.Event(), []
            threads = [threading.Thread(target=count_until, args=(store, bump, done, made)) for _ in range(3)]
            for thread in threads:
                thread.start()
            for _ in range(20_000):
                with self.assertRaises(nrbpf.NoPlaceError):
                    told = nrbpf.BUSY
                    while told is nrbpf.BUSY:
                        told = session.try_install(nrbpf.Mode.READ, 0, FIVE)
                    session.wait()
                if told is nrbpf.POSTED:
                    break
            done.set()
            for thread in threads:
                thread.join()
            self.assertEqual(session.update(bump, u32(3)).reply, sum(made) + 1)


def count_until(store, bump, done, made):
    with store.attach() as session:
        count = 0
        while not done.is_set() and count < 200_000:
            session.update(bump, u32(3))
            count += 1
        made.append(count)


class Threads(unittest.TestCase):
    def test_four_threads_count(self):
        def count(node):
            with store.attach(node) as session:
                for _ in range(1000):
                    session.update(bump, u32(3))

        with counter(nodes=2, slots=3) as (store, session, bump, peek):
            threads = [threading.Thread(target=count, args=(number % 2,)) for number in range(4)]
            for thread in threads:
                thread.start()
            for thread in threads:
                thread.join()
            self.assertEqual(session.read(peek, u32(3)), (4000, 4000))

    def test_one_session_of_two_threads(self):
        """A session's own lock sees to it that its calls come one after another."""

        def count():
            for _ in range(1000):
                session.update(bump, u32(3))

        with counter() as (_, session, bump, peek):
            threads = [threading.Thread(target=count) for _ in range(2)]
            for thread in threads:
                thread.start()
            for thread in threads:
                thread.join()
            self.assertEqual(session.read(peek, u32(3)), (2000, 2000))


class Limits(unittest.TestCase):
    def test_a_history_with_an_end(self):
        with counter(limit=2) as (_, session, bump, peek):
            session.update(bump, u32(3))
            session.update(bump, u32(3))
            with self.assertRaises(nrbpf.CallError) as refused:
                session.update(bump, u32(3))
            self.assertEqual(refused.exception.status, nrbpf.Status.FULL)
            with self.assertRaises(nrbpf.CallError) as refused:
                tried(session, lambda: session.try_update(bump, u32(3)))
            self.assertEqual(refused.exception.status, nrbpf.Status.FULL)
            self.assertEqual(session.read(peek, u32(3)), (2, 2))

    def test_a_history_without_an_end(self):
        with counter(limit=nrbpf.ENDLESS, window=16) as (_, session, bump, peek):
            for _ in range(10_000):
                session.update(bump, u32(3))
            self.assertEqual(session.read(peek, u32(3)), (10_000, 10_000))


if __name__ == "__main__":
    unittest.main()
