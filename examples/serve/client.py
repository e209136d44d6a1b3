#!/usr/bin/env python3
"""Asks a store behind `nrbpf serve`, over two pipes. From the top of the repository: examples/serve/client.py [NRBPF]"""

import struct
import subprocess
import sys


class Refused(Exception):
    """What the service answered in place of a reply."""


class Store:
    """A store that serves the programs of a manifest."""

    def __init__(self, program, manifest):
        self.service = subprocess.Popen([program, "serve", manifest], stdin=subprocess.PIPE, stdout=subprocess.PIPE)

    def ask_all(self, lines):
        """The answers to these lines, sent at once. Each must be one that has an answer, no comment, and all must fit into the pipes."""
        self.service.stdin.write("".join(line + "\n" for line in lines).encode())
        self.service.stdin.flush()
        answers = [self.service.stdout.readline().decode() for _ in lines]
        if not all(answer.endswith("\n") for answer in answers):
            raise EOFError("the service has ended")
        return [answer[:-1] for answer in answers]

    def ask(self, line):
        """The answer to one line."""
        return self.ask_all([line])[0]

    def call(self, name, argument=b""):
        """What a program replies to these bytes."""
        answer = self.ask(f"{name} {argument.hex() or '-'}")
        words = answer.split()
        if words[0] not in ("update", "read"):
            raise Refused(answer)
        return int(words[3])

    def end(self):
        """Ends the service: its exit status."""
        self.service.stdin.close()
        self.service.stdout.close()
        return self.service.wait()


def index(number):
    """The argument of `bump` and `peek`: 4 bytes, the low one first."""
    return struct.pack("<I", number)


def main(program="./nrbpf"):
    store = Store(program, "examples/counter/manifest")
    print("bump 0:", store.call("bump", index(0)))
    print("bump 0:", store.call("bump", index(0)))
    print("bump 1:", store.call("bump", index(1)))
    print("peek 0:", store.call("peek", index(0)))
    try:
        store.call("nope")
    except Refused as why:
        print("nope:", why)
    print("a bad line:", store.ask("bump"))
    print("install:", store.ask("install read 0 b7000000050000009500000000000000"))
    print("program 2:", store.call("read 2"))
    print("the last of 1000:", store.ask_all(["bump 01000000"] * 1000)[-1])
    print("status:", store.end())


main(*sys.argv[1:])
