#!/usr/bin/env python3
"""Prints what `nrbpf run MANIFEST SCRIPT` must write for programs that a compiler made: the replies and the numbers of steps.

    runs.py MANIFEST SCRIPT     from the top of the repository

An interpreter of its own, written from RFC 9669 and bpf-helpers(7) and sharing nothing with the crates. It knows the instructions that
clang writes for `examples/c` and stops at any other, at a read of what was not written, and at a loop. The replies are compared with
the transcripts of these examples, which were worked by hand.
"""

import struct
import sys

MASK = 2**64 - 1
ARGUMENT, STACK, VALUES = 1 << 32, 2 << 32, 3 << 32  # where the regions begin; each value gets a place of its own behind VALUES
JUMPS = {
    1: lambda a, b: a == b, 2: lambda a, b: a > b, 3: lambda a, b: a >= b, 4: lambda a, b: a & b != 0, 5: lambda a, b: a != b,
    10: lambda a, b: a < b, 11: lambda a, b: a <= b,
}  # fmt: skip
SIZES = {0x00: 4, 0x08: 2, 0x10: 1, 0x18: 8}


def arithmetic(code, a, b, bits):
    match code:
        case 0: return a + b
        case 1: return a - b
        case 2: return a * b
        case 3: return a // b if b else 0
        case 4: return a | b
        case 5: return a & b
        case 6: return a << b % bits
        case 7: return a >> b % bits
        case 9: return a % b if b else a
        case 10: return a ^ b
        case 11: return b
    sys.exit(f"no arithmetic of code {code}")  # fmt: skip


class Map:
    def __init__(self, words, number):
        sizes = [int(word) for word in words[2:]]
        self.is_array = words[1] == "array"
        self.key, self.value, self.room = (4, *sizes) if self.is_array else sizes
        self.values, self.places, self.number = {}, {}, number
        if self.is_array:
            self.values = {k.to_bytes(4, "little"): bytearray(self.value) for k in range(self.room)}

    def update(self, key, value, flags):
        if flags > 2:
            return -22
        if self.is_array and (key not in self.values or flags == 1):
            return -17 if key in self.values else -7
        if key in self.values and flags == 1:
            return -17
        if key not in self.values and (flags == 2 or len(self.values) == self.room):
            return -2 if flags == 2 else -7
        self.values[key] = bytearray(value)
        return 0

    def delete(self, key):
        return -22 if self.is_array else 0 if self.values.pop(key, None) is not None else -2


class Run:
    def __init__(self, program, maps, argument):
        self.program, self.maps, self.argument = program, maps, argument
        self.stack, self.pointed = [None] * 512, []
        self.registers = [None] * 11
        self.registers[1], self.registers[10] = ARGUMENT, STACK + 512

    def region(self, at):
        if at >= VALUES:
            return self.pointed[(at - VALUES) >> 16], at & 0xFFFF
        return (self.stack, at - STACK) if at >= STACK else (self.argument, at - ARGUMENT)

    def load(self, at, size):
        region, place = self.region(at)
        found = region[place : place + size]
        assert place >= 0 and len(found) == size and all(byte is not None for byte in found), "a read of what isn't there"
        return bytes(found)

    def store(self, at, size, number):
        region, place = self.region(at)
        assert place >= 0 and place + size <= len(region) and region is not self.argument, "a write where none may be"
        region[place : place + size] = (number & (1 << 8 * size) - 1).to_bytes(size, "little")

    def call(self, helper):
        named, key_at, value_at, flags = self.registers[1:5]
        key = self.load(key_at, named.key)
        if helper == 1:
            if key not in named.values:
                return 0
            self.pointed.append(named.values[key])
            return VALUES + (len(self.pointed) - 1 << 16)
        return (named.update(key, self.load(value_at, named.value), flags) if helper == 2 else named.delete(key)) & MASK

    def reply(self):
        slot, steps, registers = 0, 0, self.registers
        while True:
            opcode, both, offset, imm = struct.unpack_from("<BBhi", self.program, 8 * slot)
            dst, src, group = both & 15, both >> 4, opcode & 7
            slot, steps = slot + 1, steps + 1
            if opcode == 0x95:
                return registers[0], steps
            if opcode == 0x85:
                registers[0] = self.call(imm)
                registers[1:6] = [None] * 5
            elif opcode == 0x18:
                high = struct.unpack_from("<I", self.program, 8 * slot + 4)[0]
                registers[dst] = self.maps[imm] if src == 5 else high << 32 | imm & 0xFFFFFFFF
                slot += 1
            elif group == 1 and opcode & 0xE0 == 0x60:
                registers[dst] = int.from_bytes(self.load(registers[src] + offset, SIZES[opcode & 0x18]), "little")
            elif group in (2, 3) and opcode & 0xE0 == 0x60:
                self.store(registers[dst] + offset, SIZES[opcode & 0x18], imm if group == 2 else registers[src])
            elif group in (4, 7) and opcode >> 4 < 12 and offset == 0:
                bits = 64 if group == 7 else 32
                mask, old = 2**bits - 1, registers[dst]
                other = registers[src] if opcode & 8 else imm
                is_move = opcode >> 4 == 11
                registers[dst] = arithmetic(opcode >> 4, 0 if is_move else old & mask, other & mask, bits) & mask
            elif group in (5, 6) and (opcode == 0x05 or opcode >> 4 in JUMPS):
                mask = MASK if group == 5 else 0xFFFFFFFF
                other = registers[src] if opcode & 8 else imm
                if opcode == 0x05 or JUMPS[opcode >> 4](registers[dst] & mask, other & mask):
                    assert offset >= 0, "a loop"
                    slot += offset
            else:
                sys.exit(f"no instruction of opcode {opcode:#x}")


def main(manifest, script):
    lines = [line.split() for line in open(manifest) if line.strip() and not line.startswith("#")]
    maps = [Map(words, number) for number, words in enumerate(words for words in lines if words[0] == "map")]
    programs = {words[1]: (words[2], bytes.fromhex(open(words[4]).read())) for words in lines if words[0] == "program"}
    updates = 0
    for line in open(script):
        if line.strip() and not line.startswith("#"):
            name, argument = line.split()
            mode, program = programs[name]
            reply, steps = Run(program, maps, b"" if argument == "-" else bytes.fromhex(argument)).reply()
            print(f"{mode} {updates} reply {reply} steps {steps}")
            updates += mode == "update"


main(*sys.argv[1:])
