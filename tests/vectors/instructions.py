"""Rows of every opcode, from the tables of RFC 9669 and the assembler's words alone; nothing of this repository is used.

Each instruction has dst 3, and src 5, offset 7 and the immediate 1 where it has such a field. Its bytes are disassembled to its text, and
its text is assembled to its bytes. `instructions.py` prints these rows with their answers."""
import struct


def slot(opcode, dst=3, src=0, offset=0, imm=0):
    return (bytes([opcode, src << 4 | dst]) + struct.pack("<h", offset) + struct.pack("<i", imm)).hex()


def row(text, digits):
    print(f'dis {digits} = 0 "{text}\\n"')
    print(f'asm {text} = 0 "{digits}\\n"')


def second_operands(code, immediate_class):
    """The opcodes with an immediate and with a register, and how the operand is written: of one width."""
    return (code << 4 | immediate_class, "1", dict(imm=1)), (code << 4 | 8 | immediate_class, "r5", dict(src=5))


ARITHMETIC = dict(add=0, sub=1, mul=2, div=3, lsh=6, rsh=7, mod=9, xor=10, mov=11, arsh=12, **{"or": 4, "and": 5})
CONDITIONS = dict(jeq=1, jgt=2, jge=3, jset=4, jne=5, jsgt=6, jsge=7, jlt=10, jle=11, jslt=12, jsle=13)
SIZES = dict(w=0x00, h=0x08, b=0x10, dw=0x18)

for word, code in ARITHMETIC.items():
    for width, kind in ((32, 0x04), (64, 0x07)):
        for opcode, written, fields in second_operands(code, kind):
            row(f"{word}{width} r3, {written}", slot(opcode, **fields))
for word, code in dict(sdiv=3, smod=9).items():
    for width, kind in ((32, 0x04), (64, 0x07)):
        for opcode, written, fields in second_operands(code, kind):
            row(f"{word}{width} r3, {written}", slot(opcode, offset=1, **fields))
row("neg32 r3", slot(0x84))
row("neg64 r3", slot(0x87))
for width, opcode, sizes in ((32, 0xbc, (8, 16)), (64, 0xbf, (8, 16, 32))):
    for bits in sizes:
        row(f"movsx{width} r3, r5, {bits}", slot(opcode, src=5, offset=bits))
for word, opcode in dict(le=0xd4, be=0xdc, swap=0xd7).items():
    for bits in (16, 32, 64):
        row(f"{word}{bits} r3", slot(opcode, imm=bits))
for word, code in CONDITIONS.items():
    for width, kind in (("32", 0x06), ("", 0x05)):
        for opcode, written, fields in second_operands(code, kind):
            row(f"{word}{width} r3, {written}, +7", slot(opcode, offset=7, **fields))
for letters, size in SIZES.items():
    row(f"ldx{letters} r3, [r5+7]", slot(0x61 + size, src=5, offset=7))
    if letters != "dw":
        row(f"ldxs{letters} r3, [r5+7]", slot(0x81 + size, src=5, offset=7))
    row(f"st{letters} [r3+7], -1", slot(0x62 + size, offset=7, imm=-1))
    row(f"stx{letters} [r3+7], r5", slot(0x63 + size, src=5, offset=7))
row("lddw r3, 9223372036854775815", slot(0x18, imm=7) + "0000000000000080")
row("ldmap r3, 7", slot(0x18, src=5, imm=7) + "0000000000000000")
row("ja -2", slot(0x05, dst=0, offset=-2))
row("ja32 -2", slot(0x06, dst=0, imm=-2))
row("call 7", slot(0x85, dst=0, imm=7))
row("exit", slot(0x95, dst=0))
