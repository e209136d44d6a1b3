"""What `.ci/wrong` leaves out of a copy of a crate, so that a check of some functions proves these alone.

`rattle check --only F` proves what F calls too. A proof cites of what a function calls the clauses alone, so there the bodies of all others are taken away: each is
`loop {}`, and its proof is a hole, which `--allow-holes` takes by its statement. Left as they are: methods of traits, whose names a check makes up, functions that call
one another, and `const fn`, whose bodies types may need.
"""

import importlib.machinery
import os
import re
import shutil
import types


def reader():
    """The kit's own reader of sources, which `rt plant` works with."""
    kit = os.path.dirname(os.path.realpath(shutil.which("rt")))
    module = types.ModuleType("rt-plant-bodies")
    module.__file__ = f"{kit}/rt-plant-bodies"
    importlib.machinery.SourceFileLoader(module.__name__, module.__file__).exec_module(module)
    return module


def is_const(function, source):
    return re.search(rb"\bconst\b", source.data[function.file][function.first : function.start])


def path_of(function, source):
    """A function's path as a check prints it, without the crate: a method stands under its type, wherever its impl is."""
    if not function.block:
        return [*function.module, function.name]
    return [*source.declared[function.owner][0][0], function.owner, function.name]


def put_hole(folder, crate, path):
    """Has a hole for the proof of a function, and no other file of that proof."""
    proofs = f"{folder}/proofs/{'/'.join(path)}"
    os.makedirs(proofs, exist_ok=True)
    for name in ("Answers", "Invariants"):
        if os.path.exists(f"{proofs}/{name}.antt"):
            os.remove(f"{proofs}/{name}.antt")
    with open(f"{proofs}/Proof.antt", "w", encoding="utf-8") as it:
        it.write(f"use Rattle.{crate}.proofs.{'.'.join(path)}.Statement.{{statement}}\n")
        it.write(f"pub {path[-1]}_spec : {{M : Type 1}} → statement M\n{path[-1]}_spec = ?\n")


def spoil(folder, path, function):
    """Has an answer in the proof of a function that is refused whatever the body is: so a check offers no answers for its goals.

    It still tries all goals. To offer answers it would prepare the proof once more, which takes up to a quarter of a check.
    """
    proofs = f"{folder}/proofs/{'/'.join(path)}"
    # (the proof of a function that calls itself is in another folder)
    if os.path.isdir(proofs) or function.name not in function.body:
        os.makedirs(proofs, exist_ok=True)
    if os.path.isdir(proofs) and not os.path.exists(f"{proofs}/Proof.antt"):
        with open(f"{proofs}/Answers.antt", "a", encoding="utf-8") as it:
            it.write("\nno_offers : NoOffers\nno_offers = no_offers\n")


def leave_out(folder, crate, kept, spoils):
    """Leaves the bodies of all functions of this copy out but those whose names end in one of these; spoils the proofs of these, if that is asked for."""
    source = reader().Source(folder)
    source.read("src/lib.rt" if os.path.isfile(f"{folder}/src/lib.rt") else "src/main.rt")
    spans = {}
    for function in (it for it in source.functions if it.has_body and not it.in_trait and not it.in_cycle):
        path = path_of(function, source)
        name = "::".join([crate, *path])
        if any(name == it or name.endswith(f"::{it}") for it in kept):
            if spoils:
                spoil(folder, path, function)
        elif not is_const(function, source):
            put_hole(folder, crate, path)
            spans.setdefault(function.file, []).append((function.opens, function.end))
    for file, places in spans.items():
        text = source.data[file]
        for opens, end in sorted(places, reverse=True):
            # (what is said of the lines behind it names them by their numbers)
            text = text[:opens] + b"{ loop {} }" + b"\n" * text[opens:end].count(b"\n") + text[end:]
        with open(f"{folder}/{file}", "wb") as it:
            it.write(text)
