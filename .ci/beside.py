"""A copy of the repository with one more crate, for .ci/tests and bench/program.

`rt ci` takes no .rt or .antt file that no crate of crates.txt has. So the files of such a crate end in .rs and .antt.txt, and get their own endings in the copy.
"""

import os
import re
import shutil

TOP = os.path.realpath(os.path.join(os.path.dirname(os.path.abspath(__file__)), ".."))


def read(file):
    with open(file, encoding="utf-8") as it:
        return it.read()


def lines_of(file):
    """The lines of crates.txt, or of a file like it, by the crates that they are about."""
    return {it.split(":")[0].split()[0]: it for it in read(file).splitlines() if re.match(r"\w", it)}


def libraries_of(line):
    return line.split(":")[1].split()


def below(line):
    """The crates of the repository that the crate of a line stands on, lower ones first."""
    lines, found, left = lines_of(f"{TOP}/crates.txt"), set(), libraries_of(line)
    while left:
        name = left.pop()
        if name in lines and name not in found:
            found.add(name)
            left += libraries_of(lines[name])
    return [it for it in lines if it in found]


def link(one, other):
    """Gives a file of a library a second name. (rt removes such a file before it makes it anew.)"""
    try:
        os.link(one, other)
    except OSError:
        shutil.copyfile(one, other)


def lay_out(room, line, files, with_built=False):
    """Lays out the crate of a line, whose files are named by their places in it, beside those that it stands on, where asked for with what rt built of
    these. Returns its folder."""
    names, lines = below(line), lines_of(f"{TOP}/crates.txt")
    for name in names:
        crate, to = f"{TOP}/crates/{name}", f"{room}/crates/{name}"
        for part in ("src", "specs", "proofs"):
            if os.path.isdir(f"{crate}/{part}"):
                shutil.copytree(f"{crate}/{part}", f"{to}/{part}")
        if with_built and os.path.isdir(f"{crate}/out/rlib"):
            shutil.copytree(f"{crate}/out/rlib", f"{to}/out/rlib", copy_function=link)
    folder = f"{room}/crates/{line.split(':')[0].split()[0]}"
    for place, file in files.items():
        os.makedirs(os.path.dirname(f"{folder}/{place}"), exist_ok=True)
        shutil.copyfile(file, f"{folder}/{place}")
    shutil.copyfile(f"{TOP}/HANDLES", f"{room}/HANDLES")
    with open(f"{room}/crates.txt", "w", encoding="utf-8") as it:
        it.write("".join(f"{row}\n" for row in [*(lines[name] for name in names), line]))
    return folder
