"""Operands at the edges of both widths, and what RFC 9669 (sections 4.1 to 4.3) says of them, from Python's integers alone.

Written from the text of the standard, without a look at the Rattle code or its definitions: Python's integers have no width, so
each result is computed on whole numbers and cut off at the end. opcodes.py makes programs of these."""


def cut(width, n):
    return n & ((1 << width) - 1)

def signed(width, n):
    n = cut(width, n)
    return n - (1 << width) if n >> (width - 1) else n

def quotient(a, b):  # toward zero
    q = abs(a) // abs(b)
    return q if (a < 0) == (b < 0) else -q

def alu(op, width, a, b):
    a, b = cut(width, a), cut(width, b)
    s, t = signed(width, a), signed(width, b)
    amount = b & (width - 1)
    if op == "Add": r = a + b
    elif op == "Sub": r = a - b
    elif op == "Mul": r = a * b
    elif op == "Div": r = a // b if b else 0
    elif op == "Mod": r = a % b if b else a
    elif op == "Sdiv": r = quotient(s, t) if b else 0
    elif op == "Smod": r = s - quotient(s, t) * t if b else a
    elif op == "Or": r = a | b
    elif op == "And": r = a & b
    elif op == "Xor": r = a ^ b
    elif op == "Lsh": r = a << amount
    elif op == "Rsh": r = a >> amount
    elif op == "Arsh": r = s >> amount
    elif op == "Mov": r = b
    return cut(width, r)

def holds(condition, width, a, b):
    a, b = cut(width, a), cut(width, b)
    s, t = signed(width, a), signed(width, b)
    return {
        "Jeq": a == b, "Jne": a != b, "Jgt": a > b, "Jge": a >= b, "Jlt": a < b, "Jle": a <= b,
        "Jset": (a & b) != 0, "Jsgt": s > t, "Jsge": s >= t, "Jslt": s < t, "Jsle": s <= t,
    }[condition]

def swap(order, bits, n):
    data = cut(bits, n).to_bytes(bits // 8, "little")
    return int.from_bytes(data, "little" if order == "le" else "big")

# minus one, at each width
MINUS = {64: (1 << 64) - 1, 32: (1 << 32) - 1}

def least(width):
    return 1 << (width - 1)

# pairs at the edges of a width; those for 32 bits also have bits above, which must not count
def pairs(op, width):
    m, l = MINUS[width], least(width)
    above = 0 if width == 64 else 0xdeadbeef00000000
    small = [(0, 0), (0, 1), (1, 0), (7, 0), (m, 1), (1, m), (m, m), (l, m), (l, 1), (m, l), (l, l), (l - 1, 1), (l - 1, l), (l, l - 1)]
    if op in ("Lsh", "Rsh", "Arsh"):
        return [(above | a, above | b) for a, b in [(1, 0), (1, 1), (3, width - 1), (3, width), (3, width + 1), (m, width - 1), (m, 2 * width - 1), (l, 1), (l, width - 1), (l, width), (l, m), (0x1234567890abcdef, 13), (l + 5, 2), (1, 1 << (width // 2))]]
    extra = [(above | a, above | b) for a, b in [(13, 3), (cut(width, -13), 3), (13, cut(width, -3)), (cut(width, -13), cut(width, -3)), (0x0123456789abcdef, 0x00ff00ff00ff00ff), (1 << 31, 1 << 32), ((1 << 32) + 7, 1 << 32)]]
    return small + extra

OPERATIONS = ["Add", "Sub", "Mul", "Div", "Mod", "Sdiv", "Smod", "Or", "And", "Xor", "Lsh", "Rsh", "Arsh", "Mov"]
CONDITIONS = ["Jeq", "Jne", "Jgt", "Jge", "Jlt", "Jle", "Jset", "Jsgt", "Jsge", "Jslt", "Jsle"]

# of operations that have no edge of their own, a few pairs
PLAIN = (0, 2, 4, 6, 7, 9, 10, 11, 15, 18, 19, 20)

def operation_rows(width, op):
    """Two operands and the result."""
    chosen = pairs(op, width)
    if op in ("Add", "Sub", "Mul", "Mov", "Or", "And", "Xor"):
        chosen = [pair for i, pair in enumerate(chosen) if i in PLAIN]
    return [(a, b, alu(op, width, a, b)) for a, b in chosen]

def condition_rows(width):
    """Two operands, and for each condition whether it holds."""
    chosen = pairs("", width)
    return [(*chosen[i], [holds(condition, width, *chosen[i]) for condition in CONDITIONS]) for i in (0, 1, 2, 4, 5, 6, 7, 8, 9, 11, 13, 15, 19, 20)]

WORDS = (0, 1, 0x7f, 0x80, 0xff, 258, 0x7fff, 0x8000, 0xffff, 0x7fffffff, 0x80000000, 0xffffffff, 0x0123456789abcdef, 1 << 63, MINUS[64])

# the results of one operand: its sign extended from so many bits to a width, its low bits in an order, and its negative
def extended(width, bits, n):
    return cut(width, signed(bits, n))

def negated(width, n):
    return cut(width, -n)
