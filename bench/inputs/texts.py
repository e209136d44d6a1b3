"""Texts that are drawn, for `bench/compare`, by docs/FORMATS.md."""

import os
import re
from collections import namedtuple

from faults import STRANGE, spoiled_text, text_of
from programs import any_line, assembled, program_file, program_lines

TOP = os.path.realpath(os.path.join(os.path.dirname(os.path.abspath(__file__)), "../.."))
Shape = namedtuple("Shape", "is_array key value entries")
Program = namedtuple("Program", "name mode length")
Store = namedtuple("Store", "shapes programs files")

# ---- manifests


def read_examples():
    """The stores of examples/: the lines of each manifest, and its program files under names without a folder."""
    stores = []
    for folder, _, names in sorted(os.walk(f"{TOP}/examples")):
        if "manifest" not in names:
            continue
        with open(f"{folder}/manifest", encoding="utf-8") as text:
            lines, files = text.read().splitlines(), {}
        for path in [it.split()[4] for it in lines if it.startswith("program ")]:
            with open(f"{TOP}/{path}", "rb") as program:
                files[path.replace("/", "_")] = program.read()
        stores.append(([it.replace("/", "_") for it in lines], files))
    return stores


EXAMPLES = read_examples()


def shape(draw):
    if draw.chance(0.005):
        return Shape(True, 4, 256, draw.choice([65535, 65536]))
    if draw.chance(0.5):
        return Shape(True, 4, draw.choice([1, 2, 4, 8, 8, 8, 16, 24, 64, 256]), draw.choice([1, 2, 3, 4, 16, 257]))
    return Shape(False, draw.choice([1, 2, 4, 4, 8, 8, 12, 64]), draw.choice([1, 4, 8, 8, 8, 16, 24, 256]), draw.choice([1, 2, 2, 3, 4, 16]))


def store_of(lines, files):
    """The store that the lines of a good manifest name."""
    words = [line.split() for line in lines]
    shapes = [Shape(it[1] == "array", *map(int, ["4", *it[2:]][-3:])) for it in words if it[:1] == ["map"]]
    return Store(shapes, [Program(it[1], it[2], int(it[3])) for it in words if it[:1] == ["program"]], files)


def example(draw, faults):
    """A store of examples/: the lines of its manifest, and its program files."""
    lines, files = draw.choice(EXAMPLES)
    files = dict(files)
    if draw.chance(faults):
        name = draw.choice(list(files))
        files[name] = spoiled_text(draw, files[name])
    return list(lines), files


def invented(draw, faults, most):
    """A store of at most so many programs."""
    shapes, files = [shape(draw) for _ in range(draw.choice([1, 1, 2, 3]))], {}
    if draw.chance(0.03):
        shapes += [Shape(True, 4, 8, 4)] * (16 - len(shapes) + draw.chance(faults))
    lines = [f"map array {it.value} {it.entries}" if it.is_array else f"map hash {it.key} {it.value} {it.entries}" for it in shapes]
    for name in draw.sample(NAMES, draw.below(most) + 1):
        mode, length, path = draw.choice(["update", "update", "read"]), draw.choice([0, 1, 4, 4, 4, 8, 8, 12, 16, 24, 64]), f"{name}.hex"
        files[path] = program_file(draw, program_lines(draw, shapes, mode, length, faults), 0.3 * faults)
        if draw.chance(0.05 * faults):
            path = draw.choice(["none.hex", "no/x", ".", "é", "-", "x" * 256])
        lines.append(f"program {name} {mode} {length} {path}")
    if draw.chance(0.01 * faults):
        lines += [f"program p{it} {mode} {length} {path}" for it in range(draw.choice([250, 257]))]
    return lines, files


def manifest(draw, faults=0.0, most=4):
    """A store of at most so many programs, with faults in a share: its files, and what its manifest means."""
    lines, files = example(draw, faults) if draw.chance(0.15) else invented(draw, faults, most)
    store = store_of(lines, files)
    files["manifest"] = draw.choice(STRANGE) if draw.chance(0.01 * faults) else text_of(draw, lines, 0.3 * faults)
    return store


NAMES = "bump peek put get del take a-_9 b install invoke read update abcdefghijklmnopqrstuvwxyzabcdef x0 five seven".split()


# ---- calls


class Caller:
    """Writes calls of a store's programs and installs, in a share with faults."""

    def __init__(self, draw, store, faults):
        self.draw, self.store, self.faults, self.installed = draw, store, faults, []

    def argument(self, length):
        draw = self.draw
        if draw.chance(0.05 * self.faults):
            length = max(0, length + draw.choice([-1, 1, 4, 60]))
        match draw.below(4):
            case 0:
                made = draw.randbytes(length)
            case 1:
                made = bytes(length)
            case _:
                made = b"".join(draw.choice([0, 1, 2, 256]).to_bytes(4, "little") for _ in range(length // 4)) + bytes(length % 4)
        text = made.hex() or "-"
        return text.upper() if draw.chance(0.05) else text

    def install(self):
        """The fields of an install."""
        draw = self.draw
        mode, length = draw.choice(["update", "read"]), draw.choice([0, 4, 4, 8, 16, 64, 65 if draw.chance(0.3 * self.faults) else 12])
        made = assembled(program_lines(draw, self.store.shapes, mode, length, 0.3 * self.faults, 2))
        if len(made) > 192 and not draw.chance(0.2 * self.faults):
            made = assembled([f"mov64 r0, {draw.number()}", "exit"])
        self.installed.append(Program(None, mode, length))
        return f"{mode} {length} {made.hex()}"

    def target(self, modes=("update", "read")):
        """A program, by its name or its number, and its mode and the length of its argument."""
        draw, programs = self.draw, self.store.programs
        if self.installed and draw.chance(0.3):
            at = draw.below(min(len(self.installed), 5))
            return len(programs) + at, self.installed[at]
        program = draw.choice([it for it in programs if it.mode in modes] or programs)
        return program.name if draw.chance(0.8) else programs.index(program), program

    def line(self):
        draw = self.draw
        if draw.chance(0.08):
            return f"install {self.install()}"
        what, program = self.target()
        if draw.chance(0.03 * self.faults):
            what = draw.choice(["nope", len(self.store.programs) + draw.below(6), 70000])
        if isinstance(what, str):
            return f"{what} {self.argument(program.length)}"
        mode = program.mode if not draw.chance(0.05 * self.faults) else draw.choice(["update", "read"])
        return f"{'read' if mode == 'read' else 'invoke'} {what} {self.argument(program.length)}"

    def lines(self, most=14):
        return [self.line() for _ in range(self.draw.below(most) + 1)]


def step_lines(draw, caller, nodes, slots):
    """Steps: each node goes round its combiner's steps, now and then another step is tried."""
    round_of = ["claim", "append", "replay", "finish", "reply", "collect"]
    at, lines = [0] * nodes, []
    for _ in range(draw.choice([6, 12, 30, 60])):
        node, slot = draw.below(nodes), draw.below(slots)
        if draw.chance(0.01):
            node, slot = draw.choice([(nodes, slot), (node, slots), (2**64 - 1, 0)])
        if draw.chance(0.2):
            word = draw.choice(["reclaim", "rebase", "rebase", "replay", "readanswer", "readbegin", *round_of])
        elif at[node % nodes] == 0 or draw.chance(0.3):
            word = draw.choice(["post", "post", "post", "install" if draw.chance(0.3) else "post", "readbegin"])
            at[node % nodes] = at[node % nodes] or draw.choice([0, 0, 1])
        else:
            word = round_of[at[node % nodes] - 1]
            at[node % nodes] = (at[node % nodes] + 1) % 7
        match word:
            case "post" | "readbegin":
                what, program = caller.target(("update",) if word == "post" else ("read",))
                named = what if isinstance(what, str) or what >= len(caller.store.programs) else program.name
                lines.append(f"{word} {node} {slot} {named} {caller.argument(program.length)}")
            case "install":
                lines.append(f"install {node} {slot} {caller.install()}")
            case "collect":
                lines += [f"collect {node} {it}" for it in range(slots)] + [f"readanswer {node} {slot}"]
            case "readanswer":
                lines.append(f"readanswer {node} {slot}")
            case _:
                lines.append(f"{word} {node}")
    return lines


# ---- other texts

MISTAKES = """addd64 r0, 1;mov64 r0, r11;mov64 r0;mov64 r0,, 1;mov64 r0, 2147483648;mov64 r0, -2147483649;mov64 r0, 0x;mov64 r0, 0XFF;mov64 r0, +5;ja nowhere
ja +32768;ja -32769;ja32 +2147483648;jeq r0, 0;exit now;mov64 r0, 5 6;here: exit;1a:;a:;a:;ldxw r1, [ r1+0 ];ldxw r1, [r1];ldxw r1, [r1+32768];stw [r10-8], r1
movsx32 r0, r1, 32;movsx64 r0, r1, 9;lddw r0, 18446744073709551616;lddw r0, -9223372036854775809;ldmap r0, r1;call r1;le8 r1;ldxsdw r0, [r1+0];EXIT;exit,
mov64 r0 5;: ;abcdefghijklmnopqrstuvwxyz_0123456:;mov64 r00, 1;mov64 r0, 00x1;mov64 r0, --1;é;mov64 r0, é""".replace("\n", ";").split(";")


def assembler_text(draw):
    """A program as an author writes it, in a share with faults."""
    if draw.chance(0.2):
        lines = [any_line(draw) for _ in range(draw.below(20))]
    else:
        shapes, length = [shape(draw) for _ in range(2)], draw.choice([0, 4, 8, 16])
        lines = program_lines(draw, shapes, draw.choice(["update", "read"]), length, 0.3, 9)
    if draw.chance(0.003):
        lines = ["mov64 r0, 0", *["jeq r0, 0, out"] * draw.choice([4000, 4093, 4094, 4095]), "out:", "exit"]
    if draw.chance(0.25):
        lines.insert(draw.below(len(lines) + 1), draw.choice(MISTAKES))
    for at, line in enumerate(lines):
        match draw.below(24):
            case 0:
                lines[at] = line.replace(", ", draw.choice([",", " , ", ",\t"]))
            case 1:
                lines[at] = re.sub(r", (-?)(\d{1,20})$", lambda it: f", {it[1]}0x{int(it[2]):{draw.choice('xX')}}", line)
            case 2:
                lines[at] = draw.choice(["  ", "\t", "\r"]) + line.replace(" ", draw.choice([" ", "  ", "\t"]), 1)
            case 3:
                lines[at] = line + draw.choice(["  ; a remark", " ", "\t", "\r", ";é", ":"])
    data = "\n".join(lines).encode() + (b"" if draw.chance(0.1) else b"\n")
    return spoiled_text(draw, data) if draw.chance(0.1) else data


def value(draw):
    """A value of a call, as `encode` reads it."""
    kind = draw.choice("u8 u16 u32 u64 s8 s16 s32 s64 str hex".split())
    if kind == "str":
        return 'str:"' + draw.choice(["", "a", "two words", "é𝄞", " ", "x" * 20, "#"]) + '"'
    if kind == "hex":
        return "hex:" + draw.choice([bytes.hex, lambda it: it.hex().upper()])(draw.randbytes(draw.below(6)))
    bits, is_signed = int(kind[1:]), kind[0] == "s"
    number = draw.choice([0, 1, 2**bits - 1, 2 ** (bits - 1) - 1, 2 ** (bits - 1), draw.getrandbits(bits)])
    if is_signed and (number >= 2 ** (bits - 1) or draw.chance(0.2)):
        number = max(number - 2**bits, -(2 ** (bits - 1)))
    if draw.chance(0.01):
        number = draw.choice([2**bits, -1, -(2 ** (bits - 1)) - 1])
    sign = "-" if number < 0 else ""
    return f"{kind}:{sign}0x{abs(number):{draw.choice('xX')}}" if draw.chance(0.3) else f"{kind}:{number}"


def call_line(draw):
    """A line of calls, as `encode` reads it."""
    return " ".join([draw.choice(NAMES), *(value(draw) for _ in range(draw.choice([0, 1, 1, 2, 2, 3, 9])))])


def spoiled_state(draw, data):
    """A state with a fault: in an entry or a program, or of the text."""
    lines = data.split(b"\n")[:-1]
    if not lines or draw.chance(0.3):
        return draw.choice(STRANGE) if draw.chance(0.1) else spoiled_text(draw, data)
    at = draw.below(len(lines))
    fields = lines[at].split(b" ")
    match draw.below(8):
        case 0:
            fields[0] = draw.choice([b"0", b"1", b"2", b"16", b"p"])
        case 1:
            fields[1] = fields[1][2:]
        case 2:
            fields[-1] = fields[-1][2:]
        case 3:
            fields[-1] = b"0" * len(fields[-1])
        case 4:
            fields[1] = fields[1][:-2] + b"ff"
        case 5:
            lines.append(lines[at])
        case 6:
            lines += [b"p update 4 b7000000050000009500000000000000"] * draw.choice([1, 5, 17])
        case _:
            lines += [b"0 " + bytes([it]).hex().encode() * (len(fields[1]) // 2) + b" " + fields[-1] for it in range(97, 120)]
    lines[at] = b" ".join(fields)
    return b"\n".join(lines) + b"\n"


def transcript_of(script, answers, programs):
    """The transcript of a run: of its script and what it wrote."""
    calls = [line for line in script.decode(errors="replace").split("\n") if line and line[0] != "#"]
    lines = []
    for call, answer in zip(calls, answers.decode(errors="replace").splitlines()):
        fields, words = call.split(" "), answer.split(" ")
        if words[0] not in ("update", "read", "install") or len(words) < 4:
            continue
        what = " ".join(fields[1:])
        if len(fields) == 2:
            what = call
        elif len(fields) == 3 and int(fields[1]) < len(programs):
            what = f"{programs[int(fields[1])].name} {fields[2]}"
        lines.append(f"{words[0][0]} {words[1]} {what} {words[3]}")
    return lines


def history_of(draw, count):
    """Times of so many calls that took effect in their order, of several sessions, some at once."""
    sessions = [draw.below(draw.choice([1, 2, 4, 128])) for _ in range(count)]
    begun, ended, events = set(), set(), []

    def end(call):
        if call not in ended:
            ended.add(call)
            events.append((call, 1))

    def begin(call):
        if call not in begun:
            for earlier in range(call):
                if sessions[earlier] == sessions[call]:
                    end(earlier)
            begun.add(call)
            events.append((call, 0))

    for call in range(count):
        begin(call)
        early = call + 1 + draw.below(3)
        if early < count and draw.chance(0.5) and sessions[early] not in sessions[:early][-128:]:
            begin(early)
        for earlier in range(max(0, call - 5), call + 1):
            if draw.chance(0.4):
                end(earlier)
    for call in range(count):
        end(call)
    times = {event: at for at, event in enumerate(events)}
    return [f"{sessions[call]} {call + 1} {times[call, 0]} {times[call, 1]}" for call in range(count)]
