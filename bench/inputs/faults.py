"""Draws by a seed, and texts with faults, for `bench/compare`."""

import random
import re

EDGES = [0, 1, 2, 3, 4, 7, 8, 16, 31, 32, 63, 64, 255, 256, 32767, 65535, 2**31 - 1]
FIELDS = """0 1 2 4 5 16 17 63 64 65 256 257 65536 65537 2147483648 4294967296 18446744073709551615 18446744073709551616 007 +1 -1 -7 0x10 - -- 00 0g ABCD
ffffffff update read install invoke array hash map program post claim u r i e nope r0 r10 r11 exit é str:"a" u8:256 s8:-128""".split()
FAULTY = [b"\xff", b"\xc3", b"\xed\xa0\x80", b"\xc0\x80", b"\xf4\x90\x80\x80", b"\xe2\x82", b"caf\xe9", "é".encode(), "𝄞".encode()]
# Files that are something else: less than a text, an object file, a program's own bytes, text of two bytes a character or with a mark before it.
STRANGE = [b"", b"\n", b"-", b"\r\n", b"\r", b"#", b"#" * 512, b"#" * 513, b"\0" * 64, b"# caf\xe9\n", b"\x7fELF\x02\x01\x01" + bytes(9)]
STRANGE += [bytes.fromhex(it) for it in ("b7000000050000009500000000000000", "bf16000000000000bf16000000000000")]
STRANGE += ["map array 8 16\n".encode("utf-16"), "b700".encode("utf-16-be"), b"\xef\xbb\xbfmap array 8 16\n"]


class Draw(random.Random):
    """Draws by a seed."""

    def chance(self, share):
        return self.random() < share

    def below(self, count):
        return int(self.random() * count)

    def number(self):
        """A number that an instruction may have."""
        size = self.choice(EDGES) if self.chance(0.4) else self.below(100)
        return -size - self.below(2) if self.chance(0.25) else size


def spoiled_text(draw, data):
    """A text with a fault, or several."""
    for _ in range(draw.choice([1, 1, 1, 2, 3])):
        data = faulted(draw, data)
    return data


def faulted(draw, data):
    lines = data.split(b"\n")
    at, place = draw.below(len(lines)), draw.below(len(data) + 1)
    match draw.below(16):
        case 0:
            return data[:place] + bytes([draw.below(95) + 32]) + data[place + 1 :]
        case 1:
            return data[:place] + data[place + 1 :]
        case 2:
            return data[:place] + draw.choice([b" ", b"\t", b"\r", b"\n", b"#", b"-", b"0", b":", b";", b"x", b'"', b",", b"\0"]) + data[place:]
        case 3:
            return data[:place] + draw.choice(FAULTY) + data[place:]
        case 4:
            del lines[at]
        case 5:
            lines.insert(draw.below(len(lines) + 1), lines[at])
        case 6:
            other = draw.below(len(lines))
            lines[at], lines[other] = lines[other], lines[at]
        case 7:
            return data[:place]
        case 8:
            lines[at] += draw.choice([b" ", b"\r", b" #", b" 0", b"  x"])
        case 9:
            lines[at] = lines[at] + b"0" * (draw.choice([512, 513, 675, 676]) - len(lines[at]))
        case 10:
            lines[at] = draw.choice([bytes.upper, bytes.lower, bytes.title])(lines[at])
        case 11:
            lines[at] = re.sub(rb"\b\d{1,9}\b", lambda it: b"%d" % (int(it[0]) + draw.choice([-1, 1])), lines[at], count=draw.below(3) + 1)
        case 12:
            lines.insert(at, draw.choice([b"", b"# a remark", b"#" * draw.choice([512, 513]), b"nonsense", b"map array 8 16", b"bump 00", b"claim 0"]))
        case _:
            words = lines[at].split(b" ")
            words[draw.below(len(words))] = draw.choice(FIELDS).encode()
            lines[at] = b" ".join(words)
    return b"\n".join(lines)


def exchanged(draw, data):
    """A text in which two lines have each other's field, or a number is one more, so that their form is good still."""
    lines = [it.split(b" ") for it in data.split(b"\n")[:-1]]
    first, second = draw.choice(lines or [[b""]]), draw.choice(lines or [[b""]])
    at = draw.below(min(len(first), len(second)))
    if draw.chance(0.5) and first[-1].isdigit():
        first[-1] = b"%d" % (int(first[-1]) + draw.choice([-1, 1]) & 2**64 - 1)
    else:
        first[at], second[at] = second[at], first[at]
    return b"".join(b" ".join(it) + b"\n" for it in lines)


def text_of(draw, lines, faults=0.0):
    """Lines as a text, with remarks and empty lines, and in a share with faults."""
    if draw.chance(0.3):
        for _ in range(draw.below(3) + 1):
            lines.insert(draw.below(len(lines) + 1), draw.choice(["", "# a remark", "# é", "#" + "x" * 511]))
    data = "\n".join(lines).encode() + (b"" if draw.chance(0.05) else b"\n")
    return spoiled_text(draw, data) if draw.chance(faults) else data
