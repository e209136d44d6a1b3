#!/usr/bin/env python3
"""Clients of service.c, and whether it answers as its head says.

    load.py SOCKET CLIENTS ROUNDS    each client, a process, saves texts of 2,048 bytes of its own, and loads them
    load.py SOCKET room              one client, as many sessions as there is room for

A client saves to a session of its own, and to one of two that all clients have. What it loads must be whole: of its own session the text that it saved last, of
the others one that some client saved, and of no client an older one than it has loaded before. The first client also makes calls of each other kind. The last
line says how many calls of the library the service must have made.
"""

import multiprocessing
import socket
import sys
import time

MOST, SAVED_SESSIONS, SESSIONS = 2048, 16384, 65536
LONG = 10**9


class Wrong(Exception):
    pass


class Client:
    def __init__(self, path):
        self.socket = socket.socket(socket.AF_UNIX)
        self.socket.connect(path)
        self.lines = self.socket.makefile("rb")
        self.calls = 0

    def ask(self, *lines):
        """The answers to these lines, which are sent at once."""
        self.socket.sendall(b"".join(it + b"\n" for it in lines))
        answers = [self.lines.readline()[:-1] for _ in lines]
        for line, answer in zip(lines, answers):
            self.calls += 0 if answer == b"bad" else 2 if line.startswith(b"load") and answer != b"-2" else 1
        return answers

    def expect(self, line, wanted):
        answer = self.ask(line)[0]
        if answer != wanted:
            raise Wrong(f"{line[:60]!r} is answered {answer[:60]!r} and not {wanted[:60]!r}")


def token(number):
    return b"%032x" % number


def start(number, seconds=LONG):
    return b"start %s 7 %d" % (token(number), seconds)


def save(number, text):
    return b"save %s %s" % (token(number), text)


def load(number):
    return b"load " + token(number)


def finish(number):
    return b"finish " + token(number)


def loaded(text):
    return b"%d %s" % (len(text), text)


def text_of(client, at):
    """The text that a client saves in a round: each part of it says whose it is."""
    return (b"%d.%d " % (client, at) * MOST)[:MOST]


# ---- many clients


def check_shared(answer, clients, newest):
    """What is loaded of a session that all have; `newest` has the newest round of each client that was seen there."""
    client, at = (int(it) for it in answer.split()[1].split(b"."))
    if not (client < clients and answer == loaded(text_of(client, at))):
        raise Wrong(f"loaded is what nobody saved: {answer!r}")
    if at < newest.get(client, 0):
        raise Wrong(f"loaded is the text of round {at} of client {client} after that of round {newest[client]}")
    newest[client] = at


def save_and_load(path, own, clients, rounds, begin, told):
    """One of many clients. The sessions 1 and 2 are all clients'."""
    try:
        client, newest = Client(path), {1: {}, 2: {}}
        client.expect(start(10 + own), b"0")
        begin.wait()
        for at in range(rounds):
            text, shared = text_of(own, at), 1 + at % 2
            answers = client.ask(save(10 + own, text), load(10 + own), save(shared, text), load(shared))
            if [answers[0], answers[2]] != [b"0", b"0"]:
                raise Wrong(f"a save is answered {answers}")
            if answers[1] != loaded(text):
                raise Wrong(f"loaded is {answers[1]!r} and not the text of client {own}, round {at}")
            newest[shared][own] = at
            check_shared(answers[3], clients, newest[shared])
        client.expect(finish(10 + own), b"0")
        told.put(client.calls)
    except (Wrong, OSError, ValueError, IndexError) as why:
        told.put(f"client {own}: {why}")


def run_many(path, clients, rounds):
    first = Client(path)
    for shared in (1, 2):
        first.expect(start(shared), b"0")
    begin, told = multiprocessing.Barrier(clients), multiprocessing.Queue()
    each = [multiprocessing.Process(target=save_and_load, args=(path, own, clients, rounds, begin, told), daemon=True) for own in range(clients)]
    began = time.monotonic()
    for it in each:
        it.start()
    answers = [told.get(timeout=110) for _ in each]
    took = time.monotonic() - began
    wrong = [it for it in answers if isinstance(it, str)]
    if wrong:
        raise Wrong(wrong[0])
    one_client(first)
    saves = 2 * clients * rounds
    print(f"load: {clients} clients, {saves} saves of {MOST} bytes and as many loads in {took:.1f} s, each text whole; {first.calls + sum(answers)} calls")


# ---- one client


def one_client(client):
    """A call of each kind, and lines that are none."""
    for line in (save(3, b"x"), load(3), finish(3)):
        client.expect(line, b"-2")
    over = time.time() + 2.1
    for line, wanted in ((start(4, 1), b"0"), (save(4, b"soon over"), b"0"), (start(3), b"0"), (start(3), b"-17"), (load(3), b"0 ")):
        client.expect(line, wanted)
    # (a piece has 184 bytes, and eleven have 2,024)
    for length in (2048, 2025, 2024, 2023, 369, 368, 367, 185, 184, 183, 1, 0, 1, 184, 2047, 2048):
        client.expect(save(3, text_of(3, length)[:length]), b"0")
        client.expect(load(3), loaded(text_of(3, length)[:length]))
    odd = bytes(it for it in range(256) if it != 10)
    client.expect(save(3, odd), b"0")
    for line in (save(3, b"x" * 2049), save(3, b"x" * 100000), save(3, b"")[:-1], load(3) + b" ", load(3)[:-1], load(3) + b"0", b"load " + b"g" * 32, b"", b"\0"):
        client.expect(line, b"bad")
    for rest in (b"", b" 7", b" 7 ", b" 7 x", b" -7 9", b" 7 9 ", b" 7  9", b" 7 1" + 18 * b"0"):
        client.expect(b"start " + token(5) + rest, b"bad")
    for line in (b"Load " + token(3), b"loads " + token(3), b" " + load(3), load(3) + b"\0", load(3) + b"\r", finish(3) + b" 1", b"take 7 1", token(3)):
        client.expect(line, b"bad")
    client.expect(load(0), b"-2")
    client.expect(load(3).upper().replace(b"LOAD", b"load"), loaded(odd))
    client.expect(finish(3), b"0")
    for line in (save(3, b"x"), load(3), finish(3)):
        client.expect(line, b"-2")
    # a session has no text of an earlier one, which was finished or is over
    for line, wanted in ((start(3), b"0"), (load(3), b"0 "), (start(0xABCDEF, 0), b"0"), (load(0xABCDEF), b"-2"), (load(0xABCDEF).upper().replace(b"LOAD", b"load"), b"-2")):
        client.expect(line, wanted)
    time.sleep(max(0, over - time.time()))
    for line, wanted in ((save(4, b"x"), b"-2"), (load(4), b"-2"), (start(4), b"0"), (load(4), b"0 "), (finish(4), b"0"), (load(4), b"-2")):
        client.expect(line, wanted)


def ask_each(client, lines, wanted):
    """Many lines, of which each must be answered so."""
    for at in range(0, len(lines), 16):
        for line, answer in zip(lines[at : at + 16], client.ask(*lines[at : at + 16])):
            if answer != wanted:
                raise Wrong(f"{line!r} is answered {answer!r} and not {wanted!r}")


def run_room(path):
    client, last = Client(path), SAVED_SESSIONS
    client.expect(start(0, 1), b"0")
    client.expect(save(0, b"soon over"), b"0")
    over = time.time() + 2.1
    ask_each(client, [start(it) for it in range(1, last)], b"0")
    ask_each(client, [save(it, b"text %d" % it) for it in range(1, last)], b"0")
    time.sleep(max(0, over - time.time()))
    # the session that is over makes room for one text, and no other does until one is finished
    for line, wanted in ((start(last), b"0"), (save(last, b"the last"), b"0"), (load(0), b"-2"), (start(last + 1), b"0"), (save(last + 1, b"x"), b"-7")):
        client.expect(line, wanted)
    for line, wanted in ((load(last + 1), b"0 "), (finish(1), b"0"), (save(last + 1, b"x"), b"0"), (load(last + 1), b"1 x")):
        client.expect(line, wanted)
    # sessions 2 to SAVED_SESSIONS + 1 are kept
    ask_each(client, [start(it) for it in range(last + 2, SESSIONS + 2)], b"0")
    for line, wanted in ((start(SESSIONS + 2), b"-7"), (finish(2), b"0"), (start(SESSIONS + 2, 0), b"0"), (start(SESSIONS + 3), b"0"), (start(1), b"-7")):
        client.expect(line, wanted)
    for it in range(3, last):
        if client.ask(load(it))[0] != loaded(b"text %d" % it):
            raise Wrong(f"session {it} has another text")
    print(f"load: {SESSIONS} sessions and {SAVED_SESSIONS} texts, and one more finds no room")


def main(*words):
    try:
        if len(words) == 2 and words[1] == "room":
            run_room(words[0])
        elif len(words) == 3 and all(it.isdecimal() and int(it) for it in words[1:]):
            run_many(words[0], *map(int, words[1:]))
        else:
            sys.exit(__doc__.strip())
    except (Wrong, OSError) as why:
        sys.exit(f"load: {why}")


if __name__ == "__main__":
    main(*sys.argv[1:])
