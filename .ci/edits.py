"""What `.ci/wrong` reads: the file of an edit, and where a check says that it was refused.

An edit has lines `file: PATH`, `old: TEXT`, `new: TEXT` and `refused: PATH FUNCTION: GOAL`, each TEXT one line that its file has once. The line
`refused:` has no line numbers, because these change with every edit of the file. A goal that a log cuts off ends in `..`.
"""

import os
import re
import sys

TOP = os.path.realpath(os.path.join(os.path.dirname(os.path.abspath(__file__)), ".."))
SAYS = "refused: "
# An error of a proof file, or a note that a goal of a source has no proof.
PLACE = re.compile(r"(?:note: )?(?:\./)?(\S+?):(\d+):\d+: (?:error: )?(.*)")


def read(file):
    with open(file, encoding="utf-8", errors="replace") as it:
        return it.read()


def name_of_impl(line):
    """The name under which a check lists the methods of an impl: its type, with its trait and what that is of after the type, if it has a trait."""
    params, head = re.match(r"impl(<.*?>(?= \w))?(.*)", line.split("{")[0]).groups()
    trait, _, type_ = re.sub(r"\w+::", "", head.strip()).rpartition(" for ")
    left_out = re.findall(r"(?:[<,] *)(\w+)", params or "")
    return re.match(r"\w*", type_)[0] + "".join(it for it in re.findall(r"(?<!')\b\w+", trait) if it not in left_out)


def function_at(file, number):
    """The function that has this line of a source, under the name of its impl; that name alone where the line is in none."""
    lines = read(file).splitlines()
    form = re.compile(r'( *)(?:pub(?:\([\w ]+\))? )?(?:const )?(?:unsafe )?(?:extern "C" )?fn (\w+)')
    found, inside = "", ""
    for at, line in enumerate(lines, 1):
        if re.match("[a-z]", line):
            found = inside = name_of_impl(line) if line.startswith("impl") else ""
        is_function = form.match(line)
        if is_function:
            found = f"{inside}::{is_function[2]}" if is_function[1] and inside else is_function[2]
        # (attributes and comments stand above their function)
        if at >= number and not line.lstrip().startswith(("#", "/")):
            return found
    return found


def function_of_proof(folder, path):
    """The source and the function that a proof file belongs to; of a lemma the file itself."""
    parts = path.split("/")[1:]
    if parts[-1] not in ("Answers.antt", "Invariants.antt", "Proof.antt"):
        return path
    for count in range(len(parts) - 2, 0, -1):
        source = f"src/{'/'.join(parts[:count])}.rt"
        if os.path.isfile(f"{folder}/{source}"):
            return f"{source} {'::'.join(parts[count:-1])}"
    root = "lib" if os.path.isfile(f"{folder}/src/lib.rt") else "main"
    return f"src/{root}.rt {'::'.join(parts[:-1])}"


def goal_of(said):
    """The name of the goal in a message: `goal`: .. of a proof file, or .. (`goal`) of a source."""
    named = re.match(r"`([^`]*)`:", said) or re.search(r"\(`([^`]*)`\)", said)
    cut = re.search(r"(?:\(|^)`([^`]*)$", said)
    return named[1] if named else f"{cut[1]}.." if cut else f"{said[:60]}.."


def place_in(crate, line):
    """Where a line of a check's output stands: the source, the function and the goal; None for a line of another kind."""
    found = PLACE.match(line)
    if not found:
        return None
    path, number, said = found.groups()
    folder = f"{TOP}/crates/{crate}"
    where = function_of_proof(folder, path) if path.startswith("proofs/") else f"{path} {function_at(f'{folder}/{path}', int(number))}"
    return f"{where.strip()}: {goal_of(said)}"


def said_in(file):
    """Where the edit's file says that it is refused."""
    return "\n".join(it.removeprefix(SAYS) for it in read(file).splitlines() if it.startswith(SAYS))


def say_in(file, place):
    """Has the edit's file say that it is refused at this place."""
    kept = [it for it in read(file).splitlines() if not it.startswith(SAYS)]
    with open(file, "w", encoding="utf-8") as it:
        it.write("\n".join([*kept, SAYS + place, ""]))


def is_same(one, other):
    """Whether two places are the same, as far as neither is cut off."""
    if one.endswith("..") and len(one) <= len(other) or not other.endswith(".."):
        return other.startswith(one[:-2]) if one.endswith("..") else one == other
    return one.startswith(other[:-2])


def edits_in(kind):
    """Each crate and each edit of its folder of that name."""
    for crate in sorted(os.listdir(f"{TOP}/crates")):
        folder = f"{TOP}/crates/{crate}/{kind}"
        for edit in sorted(os.listdir(folder)) if os.path.isdir(folder) else []:
            if edit.endswith(".edit"):
                yield crate, edit


def fail(script, text):
    sys.exit(f"{script}: {text}")
