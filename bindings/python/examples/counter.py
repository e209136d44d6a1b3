"""Four threads count by one store, and what they counted is kept in a file.

    python3 bindings/python/examples/counter.py [FILE]

It runs in the top folder of the repository. A second run with the same file goes on from it.
"""

import os
import struct
import sys
import threading

import nrbpf


def count(store: nrbpf.Store, node: int, program: int) -> None:
    with store.attach(node) as session:
        for _ in range(1000):
            session.update(program, struct.pack("<I", 3))


def main() -> None:
    path = sys.argv[1] if len(sys.argv) > 1 else os.devnull
    manifest = nrbpf.Manifest.read("examples/counter/manifest")
    state = None
    if os.path.exists(path):
        with open(path, "rb") as file:
            state = nrbpf.State.load(manifest, file.read())

    with nrbpf.open(manifest, nodes=2, slots=2, state=state) as store:
        bump = store.program("bump")
        threads = [threading.Thread(target=count, args=(store, number % 2, bump)) for number in range(4)]
        for thread in threads:
            thread.start()
        for thread in threads:
            thread.join()

        with store.attach() as session, store.new_state() as kept:
            point = session.snapshot(kept)
            with open(path, "wb") as file:
                kept.dump_to(file)
            for key, value in session.scan(0):
                if any(value):
                    number, total = struct.unpack("<IQ", key + value)
                    print(f"counter {number} is {total} after {point} updates")


if __name__ == "__main__":
    main()
