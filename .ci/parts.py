"""The text of an LLVM module, cut into parts that are compiled side by side.

    cut(text, count)    the texts of the parts

Each function lies in one part, and is hidden if it was internal. If it is small, each part that calls it has a copy, so that it can be inlined there. A constant
lies in each part that reads it, and a variable in the first. What is not used is left out. The same text gives the same parts.
"""

import re

SMALL = 24  # lines that a function has at most, if it is copied
NAME = re.compile(r'@(?:"[^"]*"|[\w.$-]+)')
VARIABLE = re.compile(r"[^=]* = (?:private|internal) global ")
ZEROS = re.compile(r"([^=]*) = (?:private|internal) global (.*) zeroinitializer(, align \d+)$")


class Module:
    """What a module has: functions and data by their names, and the lines that each part needs."""

    def __init__(self, text):
        self.functions, self.data, self.common, self.called = {}, {}, [], {}
        lines = None
        for line in text.splitlines():
            if lines is not None:
                lines.append(line)
                lines = None if line == "}" else lines
            elif line.startswith("define "):
                lines = self.functions[NAME.search(line)[0]] = [line]
            elif line.startswith("@"):
                self.data[NAME.match(line)[0]] = line
            elif line and not line.startswith(";"):
                self.common.append(line)
        self.variables = [name for name, line in self.data.items() if VARIABLE.match(line)]

    def names_in(self, name):
        """What a function or a constant names, in the order in which it does."""
        if name not in self.called:
            lines = self.functions.get(name) or [self.data[name]]
            self.called[name] = [it for it in dict.fromkeys(NAME.findall("\n".join(lines))) if it != name and (it in self.functions or it in self.data)]
        return self.called[name]

    def is_copied(self, name):
        lines = self.functions[name]
        return len(lines) <= SMALL and lines[0].startswith("define internal ")

    def part(self, own, is_first):
        """The text of the part that has these functions."""
        found = dict.fromkeys([*own, *(self.variables if is_first else [])])
        left = list(own)
        while left:
            name = left.pop()
            if name in own or name in self.data or self.is_copied(name):
                new = [it for it in self.names_in(name) if it not in found]
                found.update(dict.fromkeys(new))
                left += new
        out = list(self.common)
        for name in found:
            if name in self.data:
                out.append(datum(self.data[name], is_first))
            elif name in own:
                out += [hidden(self.functions[name][0]), *self.functions[name][1:]]
            elif self.is_copied(name):
                out += self.functions[name]
            else:
                out.append(declared(self.functions[name][0]))
        return "\n".join(out) + "\n"


def hidden(line):
    return line.replace("define internal ", "define hidden ", 1)


def declared(line):
    return hidden(line).replace("define ", "declare ", 1).rstrip("{ ")


def datum(line, is_first):
    """A constant as it is. A variable is defined in the first part alone."""
    found = ZEROS.match(line)
    if not found:
        return line
    name, kind, align = found.groups()
    return f"{name} = hidden global {kind} zeroinitializer{align}" if is_first else f"{name} = external hidden global {kind}{align}"


def cut(text, count):
    module = Module(text)
    if any(not ZEROS.match(module.data[it]) for it in module.variables):
        return [text]
    whole, at = sum(map(len, module.functions.values())), 0
    parts = [{} for _ in range(count)]
    for name, lines in module.functions.items():
        parts[at * count // whole][name] = None
        at += len(lines)
    return [module.part(own, k == 0) for k, own in enumerate(parts)]
