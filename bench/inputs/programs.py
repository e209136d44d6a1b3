"""Programs that are drawn, for `bench/compare`: such as the verifier accepts, and such with faults, as text and as bytes (docs/LANGUAGE.md)."""

import re
import struct

from faults import STRANGE, spoiled_text

# Each word with its opcode, the form of its operands, and its offset and number where no operand says them. In a form r is a register, x a register or a
# number, n a number, w one of 64 bits, m a map, b a width, t a target, a an address.
TABLE = {"lddw": (0x18, "rw", 0, 0), "ldmap": (0x18, "rm", 0, 0), "call": (0x85, "n", 0, 0), "exit": (0x95, "", 0, 0)}
MATH = "add sub mul div or and lsh rsh neg mod xor mov arsh".split()
JUMPS = dict(jeq=1, jgt=2, jge=3, jset=4, jne=5, jsgt=6, jsge=7, jlt=10, jle=11, jslt=12, jsle=13)
for bits, group in ((64, 7), (32, 4)):
    TABLE |= {f"{stem}{bits}": (code << 4 | group, "r" if stem == "neg" else "rx", 0, 0) for code, stem in enumerate(MATH)}
    TABLE |= {f"s{stem}{bits}": (TABLE[f"{stem}{bits}"][0], "rx", 1, 0) for stem in ("div", "mod")} | {f"movsx{bits}": (0xB8 | group, "rrb", 0, 0)}
for bits in (16, 32, 64):
    TABLE |= {f"{stem}{bits}": (opcode, "r", 0, bits) for stem, opcode in (("le", 0xD4), ("be", 0xDC), ("swap", 0xD7))}
RECKONING = list(TABLE)[4:]
for place, letters in enumerate("w h b dw".split()):
    TABLE |= {f"st{letters}": (0x62 + 8 * place, "an", 0, 0), f"stx{letters}": (0x63 + 8 * place, "ar", 0, 0), f"ldx{letters}": (0x61 + 8 * place, "ra", 0, 0)}
    TABLE |= {f"ldxs{letters}": (0x81 + 8 * place, "ra", 0, 0)} if letters != "dw" else {}
for bits, group in (("", 5), ("32", 6)):
    TABLE |= {f"{stem}{bits}": (code << 4 | group, "rxt", 0, 0) for stem, code in JUMPS.items()} | {f"ja{bits}": (group, "t", 0, 0)}
WORDS = list(TABLE)
SIZES = {1: "b", 2: "h", 4: "w", 8: "dw"}


# What authors and compilers get wrong: lines that are put into a program. LOOK looks up a key of at most 8 bytes in map 0, KEY points R2 to one.
KEY = "stdw [r10-8], 0; mov64 r2, r10; add64 r2, -8; "
LOOK = KEY + "ldmap r1, 0; call 1; "
PITFALLS = """mov32 r7, r10|add32 r6, 1|add64 r6, r10|mov64 r9, 4; add64 r6, r9|ldxb r9, [r6+0]; mov64 r8, r10; sub64 r8, r9|neg64 r6|xor64 r6, 1|add64 r6, 65
sub64 r10, 8|mov64 r10, 0|ldxdw r3, [r6+0]; ldxb r4, [r3+0]|mov64 r3, r6; stxdw [r10-8], r3; ldxdw r4, [r6+0]; ldxb r4, [r4+0]|stb [r6+0], 1
stxdw [r10-12], r6|stxw [r10-8], r6|stxdw [r6+0], r10|stxdw [r10-8], r6; ldxw r0, [r10-8]|stxdw [r10-8], r6; stb [r10-4], 0; ldxdw r7, [r10-8]
ldxdw r0, [r10-504]|ldxdw r0, [r10+0]|ldxdw r0, [r10-520]|ldxb r0, [r6+64]|lddw r3, 4096; ldxdw r0, [r3+0]|mov64 r3, 5; stb [r3+0], 1
ldmap r3, 0; ldxdw r0, [r3+0]|ldmap r3, 16|ldmap r3, 0; add64 r3, 1|jeq r6, 0, past; past:|jgt r10, r6, past; past:|LOOKldxdw r0, [r0+0]
LOOKmov64 r7, r0; jeq r0, 0, past; ldxb r3, [r7+0]; past:|LOOKjne r0, 0, past; ldxb r3, [r0+0]; past:|LOOKjeq32 r0, 0, past; ldxb r3, [r0+0]; past:
LOOKjgt r0, 0, past; past:|LOOKjeq r0, 1, past; past:|LOOKadd64 r0, 1|LOOKexit|LOOKjne r0, 0, past; exit; past:; exit|LOOKmov64 r0, r1
LOOKstxdw [r10-16], r0; jeq r0, 0, past; ldxdw r3, [r10-16]; ldxb r3, [r3+0]; past:|LOOKjeq r0, 0, past; mov64 r3, 1; add64 r0, r3; past:
LOOKjeq r0, 0, past; stxdw [r0+0], r10; past:|LOOKjeq r0, 0, past; ldxdw r3, [r0+256]; past:|LOOKjeq r0, 0, past; add64 r0, 257; past:
LOOKjeq r0, 0, past; mov64 r9, r0; KEYldmap r1, 0; call 3; ldxb r3, [r9+0]; past:; mov64 r0, 0
LOOKjeq r0, 0, past; stxdw [r10-16], r0; KEYldmap r1, 0; call 3; ldxdw r3, [r10-16]; past:; mov64 r0, 0|LOOKmov64 r2, r0; ldmap r1, 0; call 1
LOOKjne r0, 0, past; exit; past:|LOOKjeq r0, 0, past; mov64 r7, r0; past:; ldxb r3, [r7+0]|LOOKmov64 r8, r0; ja on; on:; ldxb r3, [r8+0]|call 4|call -1
mov64 r1, 0; call 1|KEYlddw r1, 0; call 1|KEYmov64 r1, r2; call 1|mov64 r2, 5; ldmap r1, 0; call 1|KEYldmap r1, 0; ldmap r2, 0; call 1
KEYmov64 r3, r2; mov64 r4, r2; ldmap r1, 0; call 2|KEYmov64 r3, 0; mov64 r4, 0; ldmap r1, 0; call 2|KEYldmap r1, 0; call 2
mov64 r2, r10; add64 r2, -4; ldmap r1, 0; call 1|mov64 r2, r10; add64 r2, -200; ldmap r1, 0; call 1|exit|exit; exit|ja -1|ja -2|ja +300|ja32 +1
jeq r3, 0, +900|jne r6, 0, -3|mov64 r0, r10; exit|mov64 r0, r6; exit|ldmap r0, 0; exit
mov64 r3, 1; jset r3, 1, past; stdw [r10-24], 1; past:; ldxdw r3, [r10-24]|mov64 r3, 1; jset r3, 1, past; mov64 r9, 1; past:; add64 r9, 1
mov64 r3, 0; jeq r3, 0, past; mov64 r9, r10; ja on; past:; mov64 r9, r6; on:; ldxb r3, [r9-1]|mov64 r3, 0; jeq r3, 0, on; ja past; on:; exit; past:
ja past; mov64 r0, 0; exit; past:|mov64 r3, 0; jeq r3, 0, past; stxdw [r10-32], r6; past:; ldxdw r9, [r10-32]|jeq r3, 0, past; exit; lddw r3, 5; past:
mov64 r3, 0; jeq r3, 0, +1; lddw r3, 5|mov64 r0, 0; exit; jeq r0, 0, -3"""
PITFALLS = [it.replace("LOOK", LOOK).replace("KEY", KEY).split("; ") for it in PITFALLS.replace("\n", "|").split("|")]
# Slots that are no instruction: calls of other kinds, halves of wide ones, atomics, packets, a call through a register, garbage in a field.
ODD_SLOTS = """8510000000000000 85100000ffffffff 8520000001000000 1811000000000000 1821000000000000 1801000000000000 1855000000000000 db12000000000000
c312000000000000 2000000000000000 8d00000000000000 8d01000000000000 0f12010000000000 b701000100000000 9500000000000001 950a000000000000 b70b000000000000
d700000011000000 3701020000000000 0000000000000000""".split()


def encoded(line, slot, labels):
    """The bytes of an instruction. A label that is nowhere is slot 0."""
    word, _, rest = line.partition(" ")
    opcode, form, off, imm = TABLE[word]
    registers, behind = [], b""
    for letter, it in zip(form, rest.split(", ")):
        if letter == "a":
            base, off = re.fullmatch(r"\[r(\d+)([+-]\d+)\]", it).groups()
            registers.append(int(base))
        elif letter == "t":
            off = it if it[0] in "+-" else labels.get(it, 0) - slot - 1
        elif it[0] == "r":
            registers.append(int(it[1:]))
            opcode |= 8 if letter == "x" else 0
        elif letter == "b":
            off = it
        else:
            imm = int(it)
    if word == "lddw":
        behind = struct.pack("<4xI", imm >> 32 & 0xFFFFFFFF)
    elif word == "ldmap":
        registers, behind = [*registers, 5], bytes(8)
    elif word == "ja32":
        off, imm = 0, int(off)
    dst, src = [*registers, 0, 0][:2]
    return struct.pack("<BBhI", opcode, src << 4 | dst, int(off), imm & 0xFFFFFFFF) + behind


def assembled(lines):
    """The bytes of a program: of instructions as `dis` writes them, and labels."""
    labels, slot, made = {}, 0, []
    for line in lines:
        if line[-1] == ":":
            labels[line[:-1]] = slot
        else:
            slot += 2 if line[:5] in ("lddw ", "ldmap") else 1
    slot = 0
    for line in lines:
        if line[-1] != ":":
            made.append(encoded(line, slot, labels))
            slot += len(made[-1]) // 8
    return b"".join(made)


def any_operand(draw, word, letter):
    match letter:
        case "r":
            return f"r{draw.below(11)}"
        case "x":
            return any_operand(draw, word, draw.choice("rn"))
        case "w":
            return str(draw.choice([draw.number(), draw.getrandbits(64), 2**64 - 1, -(2**63)]))
        case "m":
            return str(draw.choice([0, 0, 0, 1, 2, 16, -1]))
        case "b":
            return draw.choice(["8", "16"] if word == "movsx32" else ["8", "16", "32"])
        case "t":
            return f"{draw.choice([0, 0, 1, 1, 2, 3, 5, 9, -1, -2]):+d}"
        case "a":
            off = draw.choice([0, 0, 4, 8, -4, -8, -8, -16, -512, -513, draw.below(700) - 600])
            return f"[r{draw.choice([0, 1, 6, 10, 10, draw.below(11)])}{off:+d}]"
    return str(draw.below(5) if word == "call" else draw.number())


def any_line(draw):
    """An instruction of any word, good by its form alone."""
    word = draw.choice(WORDS)
    return f"{word} {', '.join(any_operand(draw, word, it) for it in TABLE[word][1])}".strip()


class Author:
    """Writes a program that keeps the verifier's rules, for maps, a mode and an argument of so many bytes."""

    def __init__(self, draw, shapes, mode, length):
        self.draw, self.shapes, self.is_update, self.length = draw, shapes, mode == "update", length
        # the lines, how many labels they have, registers with a number, and cells of the stack with one, counted from its end
        self.lines, self.count, self.numbers, self.cells = [], 0, [], []
        # whether R6 points to the argument, and a register that no number may take
        self.has_argument, self.held = draw.chance(0.9), None

    def say(self, *lines):
        self.lines += lines

    def label(self):
        self.count += 1
        return f"{self.draw.choice(['out', 'l', 'is_there_', 'x_0'])}{self.count}"

    def scratch(self):
        """A register that gets a number."""
        register = self.draw.choice([it for it in ("r0", "r1", "r2", "r3", "r4", "r5", "r7", "r8", "r9") if it != self.held])
        if register not in self.numbers:
            self.numbers.append(register)
        return register

    def number(self):
        """A register with a number."""
        if self.numbers and self.draw.chance(0.8):
            return self.draw.choice(self.numbers)
        register = self.scratch()
        self.say(f"lddw {register}, {self.draw.getrandbits(64)}" if self.draw.chance(0.1) else f"mov64 {register}, {self.draw.number()}")
        return register

    def second(self):
        return self.number() if self.draw.chance(0.4) else self.draw.number()

    def read(self, base, room, at=0):
        """Reads something of a region of so many bytes, from an offset on."""
        size = self.draw.choice([it for it in SIZES if it <= room])
        sign = "s" if size < 8 and self.draw.chance(0.2) else ""
        self.say(f"ldx{sign}{SIZES[size]} {self.scratch()}, [{base}{at + self.draw.below(room - size + 1):+d}]")

    def write(self, base, room, at=0):
        size = self.draw.choice([it for it in SIZES if it <= room])
        address = f"[{base}{at + self.draw.below(room - size + 1):+d}]"
        self.say(f"stx{SIZES[size]} {address}, {self.number()}" if self.draw.chance(0.5) else f"st{SIZES[size]} {address}, {self.draw.number()}")

    # ---- parts

    def reckon(self):
        word, first = self.draw.choice(RECKONING), self.number()
        match TABLE[word][1]:
            case "r":
                self.say(f"{word} {first}")
            case "rx":
                self.say(f"{word} {first}, {self.second()}")
            case _:
                self.say(f"{word} {self.scratch()}, {first}, {self.draw.choice([8, 16])}")

    def load(self):
        if self.has_argument and self.length:
            self.read("r6", self.length)
        else:
            self.reckon()

    def keep(self):
        cell = self.draw.below(8) + 1
        self.say(f"stxdw [r10-{8 * cell}], {self.number()}")
        if cell not in self.cells:
            self.cells.append(cell)

    def fetch(self):
        if self.cells:
            self.read("r10", 8, -8 * self.draw.choice(self.cells))
        else:
            self.write("r10", 64, -64)

    def spill(self):
        """Stores the pointer to the argument on the stack, and takes it back."""
        if self.has_argument:
            cell = self.draw.below(8) + 1
            self.cells = [it for it in self.cells if it != cell]
            self.say(f"stxdw [r10-{8 * cell}], r6", f"mov64 r6, {self.draw.number()}", f"ldxdw r6, [r10-{8 * cell}]")

    def branch(self):
        label, word = self.label(), self.draw.choice(list(JUMPS)) + self.draw.choice(["", "32"])
        self.say(f"{word} {self.number()}, {self.second()}, {label}")
        known = list(self.numbers), list(self.cells)
        for _ in range(self.draw.below(3) + 1):
            self.draw.choice([self.reckon, self.load, self.keep])()
        if self.draw.chance(0.2):
            self.leave()
        self.say(f"{label}:")
        self.numbers, self.cells = known

    def point(self, register, size, cell):
        """Points a register to bytes, of the argument or of the stack from this cell on."""
        if self.has_argument and self.length >= size and self.draw.chance(0.6):
            self.say(f"mov64 {register}, r6")
            if at := self.draw.below(self.length - size + 1):
                self.say(f"add64 {register}, {at}")
        else:
            cells = range(cell, cell + (size + 7) // 8)
            self.say(*(f"stdw [r10-{8 * it}], {self.draw.choice([0, 1, 2, 256])}" for it in cells), f"mov64 {register}, r10")
            self.say(self.draw.choice(["add64 {}, -{}", "sub64 {}, {}"]).format(register, 8 * cells[-1]))
            self.cells += [it for it in cells if it not in self.cells]
        self.numbers = [it for it in self.numbers if it != register]

    def ask(self, helper, number):
        self.say(f"ldmap r1, {number}", f"call {helper}")
        self.numbers = [it for it in self.numbers if it in ("r7", "r8", "r9")]

    def use(self, room):
        """Works with the value that R0 points to."""
        base, self.held = "r0", "r0"
        if self.draw.chance(0.3):
            base = self.held = "r5"
            self.say("mov64 r5, r0", f"{self.draw.choice(['add64', 'sub64'])} r5, 0")
        for _ in range(self.draw.below(3) + 1):
            (self.write if self.is_update and self.draw.chance(0.6) else self.read)(base, room)
        self.held = None

    def look(self):
        number, label = self.draw.below(len(self.shapes)), self.label()
        self.point("r2", self.shapes[number].key, 9)
        self.ask(1, number)
        if self.draw.chance(0.5):
            known = list(self.numbers)
            self.say(f"jeq r0, 0, {label}")
            self.use(self.shapes[number].value)
            self.say(f"{label}:")
            self.numbers = known
        else:
            self.say(f"jne r0, 0, {label}", f"mov64 r0, {self.draw.number()}", "exit", f"{label}:")
            self.use(self.shapes[number].value)

    def change(self):
        """An update or a delete."""
        number = self.draw.below(len(self.shapes))
        key, value = self.shapes[number][1:3]
        if not self.is_update or value > 64:
            return self.look()
        self.point("r2", key, 9)
        if self.draw.chance(0.3):
            self.ask(3, number)
        else:
            self.point("r3", value, 20)
            self.say(f"mov64 r4, {self.draw.choice([0, 0, 0, 1, 2, 3])}")
            self.ask(2, number)
        self.numbers.append("r0")

    def leave(self):
        self.say(f"mov64 r0, {self.number() if self.draw.chance(0.7) else self.draw.number()}", "exit")

    def program(self, size):
        """A program of at most so many parts."""
        if self.has_argument:
            self.say("mov64 r6, r1")
        parts = [self.reckon, self.load, self.keep, self.fetch, self.spill, self.branch, self.look, self.look, self.change, self.change]
        for _ in range(self.draw.below(size) + 1):
            self.draw.choice(parts)()
        self.leave()
        return self.lines


def spoiled(draw, lines):
    """A program with a fault, or several."""
    lines = list(lines)
    for _ in range(draw.choice([1, 1, 1, 2, 4])):
        at = draw.below(len(lines))
        match draw.below(9):
            case 0:
                lines.insert(at, any_line(draw))
            case 1:
                lines[at] = any_line(draw)
            case 2 if len(lines) > 1:
                del lines[at]
            case 3:
                lines[at] = re.sub(r"\br\d+", f"r{draw.below(11)}", lines[at], count=1)
            case 4:
                lines[at] = re.sub(r"([+-]?)\b(\d+)(\]?)$", lambda it: f"{it[1]}{int(it[2]) + draw.choice([1, 4, 8, 500])}{it[3]}", lines[at])
            case _:
                lines[at:at] = draw.choice(PITFALLS)
    return lines


def program_lines(draw, shapes, mode, length, faults=0.0, size=9):
    """A program of at most so many parts, and a share of such with faults."""
    if not draw.chance(faults):
        return Author(draw, shapes, mode, length).program(size)
    if draw.chance(0.1):
        return [any_line(draw) for _ in range(draw.below(9) + 1)]
    # A fault may be that a read changes a map.
    return spoiled(draw, Author(draw, shapes, draw.choice([mode, "update"]), length).program(size))


def digits(draw, made):
    """Bytes as a program file, in one of its styles."""
    slots = [bytes(made[at : at + 8]) for at in range(0, len(made), 8)]
    match draw.below(5):
        case 0:
            return " ".join(map(bytes.hex, slots)).encode() + b"\n"
        case 1:
            return "\n".join(it.hex(" ") for it in slots).upper().encode() + b"\r\n\t"
        case 2:
            return made.hex().encode()
    return made.hex().encode() + b"\n"


def program_file(draw, lines, faults):
    """A program file, and a share of such with faults in the bytes or the digits."""
    made = bytearray(assembled(lines))
    if draw.chance(faults):
        match draw.below(6):
            case 0:
                return spoiled_text(draw, digits(draw, made))
            case 1:
                return draw.choice(STRANGE)
            case 2:
                made = made[: draw.below(len(made) + 1)]
            case 3:
                at = 8 * draw.below(len(made) // 8 + 1)
                odd = [bytes.fromhex(draw.choice(ODD_SLOTS)), draw.randbytes(8), made * (4097 * 8 // len(made)) if draw.chance(0.02) else b""]
                made[at:at] = draw.choice(odd)
            case _:
                for _ in range(draw.below(2) + 1):
                    made[draw.below(len(made))] ^= 1 << draw.below(8)
    return digits(draw, bytes(made))
