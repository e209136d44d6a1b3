"""The package's numbers are those of nrbpf.h."""

import os
import re
import unittest
from pathlib import Path

import nrbpf
from nrbpf import _native
from tests.fixture import TOP

HEADER = Path(os.environ.get("NRBPF_INCLUDE") or TOP / "embed", "nrbpf.h").read_text("utf-8")


def defined(name):
    return int(re.search(rf"^#define NRBPF_{name} (\d+)u?$", HEADER, re.MULTILINE)[1])


class Header(unittest.TestCase):
    def test_version(self):
        self.assertEqual(nrbpf.VERSION, 1000 * defined("VERSION_MAJOR") + defined("VERSION_MINOR"))
        self.assertEqual(nrbpf.ENDLESS, defined("ENDLESS"))

    def test_statuses(self):
        named = re.findall(r"\bNRBPF_([CEOSH])(\d+)(?: = [^,\n]*)?,?\s+NRBPF_(\w+) = NRBPF_\1\2\b", HEADER)
        wanted = {name: ord(letter) << 8 | int(number) for letter, number, name in named}
        self.assertEqual({it.name: it.value for it in nrbpf.Status}, wanted)

    def test_texts(self):
        for status in nrbpf.Status:
            self.assertTrue(status.text.startswith(f"{chr(status >> 8)}{status & 255}: "), status.text)

    def test_functions(self):
        declared = set(re.findall(r"\bnrbpf_(\w+)\([^()]*\);", HEADER))
        twins = {f"try_{name}" for name in _native._TWINS}
        self.assertEqual(declared - {"writer"}, set(_native._TAKES) | set(_native._TWINS) | twins)


if __name__ == "__main__":
    unittest.main()
