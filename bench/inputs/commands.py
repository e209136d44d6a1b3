"""Inputs of `nrbpf` that are drawn, for `bench/compare`: of each command its words, the files that are there, and what stands on standard input.

States are those that a program writes, and so is what transcripts are made of: `room` (`Room` in `bench/compare`) runs it.
"""

from collections import namedtuple

from faults import STRANGE, Draw, exchanged, spoiled_text, text_of
from programs import any_line, program_file, program_lines
from texts import NAMES, Caller, assembler_text, call_line, history_of, manifest, shape, spoiled_state, step_lines, transcript_of

# `files` by their names: bytes; text, which is where a link leads; `None`, a folder. Where `is_full`, standard output takes no byte.
Case = namedtuple("Case", "words files given is_full", defaults=(None, False))
OPTIONS = """--help -h --version -V help --explain --lanes --graph --signed --stats --slots --slots=17 --spare --spare=16 --spare=17 --spare=-1
--spare=4294967296 --nodes=9 --limit=0 --limit=5 --window=15 --load --dump=- --dump -o -o- --output=out --history=x -- - --nosuch -x é""".split() + [""]
# The sizes of a store, and such as are out of their limits.
SIZES = {"window": [16, 16, 17, 64, 4096], "limit": [1, 3, 10, 1000000], "spare": [0, 1, 4, 16]}
WRONG = {"nodes": [0, 9], "slots": [0, 17], "window": [15, 4097], "limit": [0, 1000001], "spare": [17, 4294967295]}


def written(draw, files):
    """A path to write: of a new file, one that is there, a link, a folder, one that can't be made, a device."""
    match draw.below(14):
        case 0:
            files["out"] = b"old\n"
        case 1:
            files["out"] = "linked"
        case 2:
            files |= {"out": "there", "there": b"old\n"}
        case 3:
            files["out"] = None
        case 4:
            files["out.part"] = draw.choice([b"old\n", None, "linked"])
        case 5:
            return draw.choice(["no/out", "", ".", "/dev/full"])
        case 6:
            return "-"
        case 7:
            return draw.choice(list(files))
    return "out"


def loaded(draw, room, store, faults):
    """A state that a run leaves, in a share with a fault, and what was installed."""
    caller = Caller(draw, store, 0)
    case = Case(["run", "--dump", "state", "manifest", "script"], store.files | {"script": text_of(draw, caller.lines(20))})
    state = room.run(room.old, case).files.get("state", b"")
    return spoiled_state(draw, state) if draw.chance(faults) else state, caller.installed[:4]


def of_store(draw, room, words, faults, dumps=True):
    """Of a command on a store: its files, and who calls it. In a share it loads and dumps a state."""
    store = manifest(draw, draw.choice([0, 0, 0.4 * faults]))
    caller = Caller(draw, store, faults)
    if draw.chance(0.35):
        store.files["state"], caller.installed = loaded(draw, room, store, 0.35 * faults)
        words += ["--load", "state"]
    if dumps and draw.chance(0.4):
        words += ["--dump", written(draw, store.files)]
    return store, caller


def sizes(draw, words, nodes, slots):
    """Options of a store's sizes: those of nodes and slots, and in a share others."""
    chosen = {"nodes": nodes, "slots": slots} | {name: draw.choice(it) for name, it in SIZES.items() if draw.chance(0.4)}
    for name, number in chosen.items():
        words += [f"--{name}", str(draw.choice(WRONG[name]) if draw.chance(0.01) else number)]


def check(draw, room):
    return Case(["check", "manifest"], manifest(draw, draw.choice([0, 0.3, 1]), 6).files)


def explain(draw, room):
    store = manifest(draw, draw.choice([0, 0.3, 1]), 6)
    words = ["explain"] + ["--graph"] * draw.chance(0.4) + ["manifest"]
    if draw.chance(0.4):
        words.append(draw.choice([*(it.name for it in store.programs), "nope"]) if draw.chance(0.95) else draw.choice(["", "é", "-x", "a b"]))
    return Case(words, store.files)


def asm(draw, room):
    files = {"text": assembler_text(draw)}
    words = ["asm"] + ["--explain"] * draw.chance(0.5)
    if draw.chance(0.4):
        words += [draw.choice(["-o", "--output"]), written(draw, files)]
    return Case([*words, "text"], files)


def dis(draw, room):
    lines = [any_line(draw) for _ in range(draw.below(20) + 1)]
    if draw.chance(0.5):
        lines = program_lines(draw, [shape(draw) for _ in range(2)], "update", 8, 0.3)
    return Case(["dis"] + ["--slots"] * draw.chance(0.5) + ["program"], {"program": program_file(draw, lines, 0.4)})


def encode(draw, room):
    text = text_of(draw, [call_line(draw) for _ in range(draw.below(12) + 1)], 0.25)
    return Case(["encode"], {}, text) if draw.chance(0.2) else Case(["encode", "calls"], {"calls": text})


def run(draw, room):
    words = ["run"] + ["--signed"] * draw.chance(0.4)
    store, caller = of_store(draw, room, words, 1)
    return Case([*words, "manifest", "script"], store.files | {"script": text_of(draw, caller.lines(), 0.25)})


def serve(draw, room):
    words = ["serve"] + ["--spare", draw.choice(["0", "1", "4", "16", "17"])] * draw.chance(0.3)
    store, caller = of_store(draw, room, words, 1)
    given = text_of(draw, caller.lines(), 0.4)
    if draw.chance(0.005):  # more than one read takes
        given *= 90000 // (len(given) + 1) + 1
    return Case([*words, "manifest"], store.files, given)


def schedule(draw, room):
    words, store = ["schedule"] + ["--explain"] * draw.chance(0.5) + ["--lanes"] * draw.chance(0.4), manifest(draw, draw.choice([0, 0, 0.4]))
    nodes, slots = draw.choice([1, 2, 2, 3, 8]), draw.choice([1, 2, 2, 4, 16])
    sizes(draw, words, nodes, slots)
    lines = step_lines(draw, Caller(draw, store, 1), nodes, slots)
    return Case([*words, "manifest", "steps"], store.files | {"steps": text_of(draw, lines, 0.15)})


def transcript(draw, room, load, store, caller):
    """The lines of a transcript, and the times of its calls: of one session as `stress` writes them, or of a run as it were of several."""
    files = store.files | {"script": text_of(draw, caller.lines())}
    if draw.chance(0.4):
        limit = draw.choice(["1", "3", "1000000"])
        words = ["stress", "--nodes", "1", "--slots", "1", "--limit", limit, *load, "--history", "times", "manifest", "script"]
        made = room.run(room.old, Case(words, files))
        return made.out.decode(errors="replace").splitlines(), made.files.get("times", b"")
    made = room.run(room.old, Case(["run", *load, "manifest", "script"], files))
    lines = transcript_of(files["script"], made.out, store.programs)
    if draw.chance(0.2):
        lines += [f"e {it.name} {'00' * it.length or '-'}" for it in store.programs if it.mode == "update"]
    return lines, "".join(f"{it}\n" for it in history_of(draw, len(lines))).encode()


def replay(draw, room):
    words = ["replay"] + ["--explain"] * draw.chance(0.5)
    store, caller = of_store(draw, room, words, 0.3, False)
    lines, times = transcript(draw, room, words[words.index("--load") :] if "--load" in words else [], store, caller)
    if draw.chance(0.5):
        words += ["--history", "times"]
        store.files["times"] = draw.choice([exchanged, spoiled_text])(draw, times) if draw.chance(0.4) else times
    if draw.chance(0.1):
        words += ["--spare", draw.choice(["0", "3", "4", "16", "17"])]
    text = text_of(draw, lines, 0.15)
    return Case([*words, "manifest", "transcript"], store.files | {"transcript": exchanged(draw, text) if draw.chance(0.2) else text})


def stress(draw, room):
    """A run of one session, whose transcript is determined, or of several, most of which are refused."""
    words, kind = ["stress"], draw.choice(["one", "one", "refused", "refused", "several"])
    nodes, slots = {"one": (1, 1), "refused": (draw.choice([1, 2, 9]), draw.choice([2, 17])), "several": (draw.choice([1, 2, 4]), draw.choice([2, 4]))}[kind]
    sizes(draw, words, nodes, slots)
    store, caller = of_store(draw, room, words, 1 if kind == "refused" else 0.2)
    if draw.chance(0.4):
        words += ["--history", draw.choice(["times", "times", "times", "-", "no/times", "out"])]
    words += ["--stats"] * draw.chance(0.2)
    lines = caller.lines(40 if kind == "several" else 14)
    if kind == "refused":
        wrong = ["nope 00", "invoke 70000 -", "claim 0 0 0 0 0", "read 0", "install update 65 -", "install update 4 -", "é", " "]
        lines.insert(draw.below(len(lines) + 1), draw.choice(wrong))
    return Case([*words, "manifest", "script"], store.files | {"script": text_of(draw, lines, 0.1)})


COMMANDS = {it.__name__: it for it in (check, explain, asm, dis, encode, run, schedule, replay, serve, stress)}


def spoiled_words(draw, words):
    """The words of a command line with a fault. A device without an end is not to be read."""
    words = ["out" if it == "/dev/full" else it for it in words]
    at = draw.below(len(words))
    match draw.below(5):
        case 0:
            del words[at]
        case 1:
            words.insert(at, words[at])
        case 2:
            words[at] = draw.choice(["nosuch", "ru", "manifest", "-", ""])
        case _:
            words.insert(draw.below(len(words) + 1), draw.choice(OPTIONS))
    return words


def drawn(command, seed, number, room):
    """The input of this number for a command. In a few the words are wrong, or a file is none, or something else, or standard input or output is."""
    draw = Draw(f"{seed} {command} {number}")
    case = COMMANDS[command](draw, room)
    words, files = case.words, case.files
    named = [it for it in words if it in files]
    name = draw.choice(sorted(files)) if files else None
    match draw.below(60):
        case 0 | 1:
            return case._replace(words=spoiled_words(draw, words))
        case 2 if name:
            del files[name]
        case 3 if name:
            files[name] = draw.choice(STRANGE)
        case 4 if name:
            files[name] = draw.choice([None, name, "nowhere"])  # a folder, a link to itself, a link to nothing
        case 5 | 6 if named:
            name = draw.choice(named)
            given = files[name] if isinstance(files[name], bytes) else b""
            return case._replace(words=["-" if it == name else it for it in words], given=case.given or given)
        case 7:
            return case._replace(is_full=True)
        case 8 if isinstance(files.get(name), bytes):
            files[name] = spoiled_text(draw, files[name])
    return case
