"""The count `dead` of .ci/house: public functions that no code calls, by their paths.

A call `T::f(..)` is of the type T, `m::f(..)` of the module m, `f(..)` of what is imported or declared under this name. A call `x.f(..)` may be of
each type that has a method f with as many arguments, if the calling crate uses the type's crate.
"""

import re
from functools import cache

from house_proofs import files, read


def code_only(text):
    """A text of Rust without imports, comments, clauses and ghosts: what is left calls what it names."""
    text = re.sub(r"//[^\n]*", "", text)
    text = re.sub(r"(?m)^ *(?:pub(?:\([\w ]+\))? )?(?:ghost )?use [^;]*;", "", text)
    return re.sub(r"(?m)^ *(?:requires|ensures|ghost)\b.*$", "", text)


def variables_of(code):
    """The words that may be variables of a text, and then are no functions."""
    patterns = re.findall(r"\blet ([^=;]*) =|^ *([^=\n]*) =>|\|([^|\n]*)\||\bfor (\w+)|\b(\w+):(?!:)", code, re.M)
    return {word for parts in patterns for part in parts for word in re.findall(r"\w+", part)}


def imports_of(path, before=()):
    """The (name here, path) of each item of a `use`."""
    head, _, listed = path.strip().partition("{")
    if listed:
        before = (*before, *re.findall(r"\w+", head))
        for item in re.findall(r"[^,{}]+(?:\{[^{}]*\})?", listed.rstrip().removesuffix("}")):
            yield from imports_of(item, before) if item.strip() else ()
        return
    name, _, other = path.partition(" as ")
    whole = (*before, *re.findall(r"\w+", name))
    if whole:
        yield (other or whole[-1]).strip(), whole


def count_of(inner):
    """How many arguments a call has; None where a closure or a comparison makes that hard to see."""
    if re.search(r"\||<", re.sub(r"::<[^;(){}]*>", "", inner)):
        return None
    depth, count, word = 0, 0, ""
    for sign in inner + ",":
        depth += (sign in "([{") - (sign in ")]}")
        if sign == "," and not depth:
            count += bool(word.strip())
            word = ""
        else:
            word += sign
    return count


def end_of(text, at):
    depth = 0
    for k in range(at, len(text)):
        depth += (text[k] in "([{") - (text[k] in ")]}")
        if not depth:
            return k
    return len(text)


class Source:
    """A file of src/: what it imports and calls."""

    def __init__(self, file):
        text = read(file)
        parts = re.sub(r"\.rs$|\.rt$", "", file).split("/")
        self.file, at = file, parts.index("src")
        self.crate, self.module = parts[at - 1], tuple(parts[at + 1 :]) if parts[at + 1 :] not in (["lib"], ["main"]) else ()
        self.imports, self.shown = {}, {}
        for public, path in re.findall(r"(?m)^ *(pub(?:\([\w ]+\))? )?use ([^;]*);", re.sub(r"//[^\n]*", "", text)):
            for here, whole in imports_of(path):
                self.imports[here] = whole
                if public:
                    self.shown[here] = whole
        self.code = code_only(text)
        self.types = set(re.findall(r"(?m)^(?:unsafe )?impl(?:<[^{]*?>)? (?:[^{]* for )?&?(?:'\w+ )?(?:mut )?(\w+)", text))
        self.paths = {tuple(it.split("::")) for it in re.findall(r"(?<![\w:])((?:\w+::)+\w+)", re.sub(r"::<[^;(){}]*?>(?=::|\()", "", self.code))}
        methods = ((it[1], it.end()) for it in re.finditer(r"\.(\w+)(?:::<[^;(){}]*>)?\(", self.code))
        self.methods = {(name, count_of(self.code[at : end_of(self.code, at - 1)])) for name, at in methods}
        self.called = set(re.findall(r"(?<!\bfn )(?<![.:\w])(\w+)(?:::<[^;(){}]*>)?\(", self.code))
        self.words = set(re.findall(r"(?<!\bfn )(?<![.:\w])(\w+)\b", self.code)) - variables_of(self.code) | self.called


class Calls:
    """All files of src/ but those of tests, with the libraries that each crate uses."""

    def __init__(self):
        self.sources = {it: Source(it) for it in files(".rt", ("src",)) if "/src/" in it and not it.startswith("tests/")}
        self.by_module = {(it.crate, *it.module): it for it in self.sources.values()}
        self.callers = [it for it in self.sources.values() if not it.crate.startswith("test_")]
        lines = [it for it in read("crates.txt").splitlines() if re.match(r"\w", it)]
        self.uses = {it.split(":")[0].split()[0]: set(it.split(":")[1].split()) for it in lines}

    @cache
    def sees(self, crate):
        """The crates whose values a crate may hold: itself, what it uses, and what these use. (A benchmark may hold all.)"""
        return set(self.uses) if crate.startswith("bench_") else {crate}.union(*(self.sees(it) for it in self.uses.get(crate, ())))

    def whole(self, source, path):
        """A path of a file from the crate's name."""
        first, *rest = path
        if first in ("crate", "self", "super"):
            up = {"crate": (), "self": source.module, "super": source.module[:-1]}[first]
            while rest[:1] == ["super"]:
                up, rest = up[:-1], rest[1:]
            return (source.crate, *up, *rest)
        if (source.crate, *source.module, first) in self.by_module:
            return (source.crate, *source.module, *path)
        return self.whole(source, (*source.imports[first], *rest)) if rest and source.imports.get(first, path)[0] != first else tuple(path)

    def declared(self, source, path):
        """The path from the crate's name under which a function is declared that modules hand on by `pub use`."""
        path = self.whole(source, path)
        while (above := self.by_module.get(path[:-1])) and path[-1] in above.shown:
            path = self.whole(above, above.shown[path[-1]])
        return path

    def calls_function(self, caller, crate, module, name):
        wanted = (crate, *module, name)
        if caller.crate == crate and caller.module == module:
            return name in caller.words or any(path[-1] == name and self.declared(caller, path) == wanted for path in caller.paths)
        imported = (path for here, path in caller.imports.items() if here in caller.words)
        return crate in self.sees(caller.crate) and any(path[-1] == name and self.declared(caller, path) == wanted for path in [*imported, *caller.paths])

    def calls_method(self, caller, crate, owner, name, count, has_self):
        if crate not in self.sees(caller.crate):
            return False
        owners = {owner} | {here for here, path in caller.imports.items() if path[-1] == owner} | ({"Self"} if owner in caller.types and caller.crate == crate else set())
        if any(path[-1] == name and path[-2] in owners for path in caller.paths):
            return True
        return has_self and ((name, count) in caller.methods or (name, None) in caller.methods)

    def is_called(self, file, owner, name, count, has_self):
        source = self.sources[file]
        if owner:
            return any(self.calls_method(it, source.crate, owner, name, count, has_self) for it in self.callers)
        return any(self.calls_function(it, source.crate, source.module, name) for it in self.callers)


def owner_of(lines, at):
    """The type whose `impl` a function stands in, that begins at this line; None where it stands in none."""
    if not lines[at].startswith(" "):
        return None
    head = next(lines[k] for k in range(at, -1, -1) if re.match(r"(unsafe )?(impl|trait|pub trait|mod|pub mod)\b", lines[k]))
    found = re.match(r"(?:unsafe )?impl(?:<.*?>)? (?:.* for )?(\w+)", head)
    return found and found[1]


def is_method(lines, at):
    """Whether the function that begins at this line takes a `self`."""
    head = " ".join(lines[at : at + 8])
    return bool(re.search(r"\(\s*(?:&(?:'\w+ )?)?(?:mut )?self\b", head))
