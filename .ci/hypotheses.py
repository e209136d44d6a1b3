"""Finds what a law asks of its reader and no clause of a call gives him. .ci/believed lists it.

A law holds of all values. What is before an arrow of its statement is a hypothesis, and what is after the last arrow its conclusion. A hypothesis counts if it is
a relation: a record or a `data` of specs/ with parameters. Equations and orders of numbers don't count, since a reader can compute them. An `abbrev` is
what it abbreviates.

A reader has a relation
- if a clause `ensures` of a public call that is no law gives it, or the invariant of a public type. Then he has its fields too;
- if a law gives it, and he has the law's hypotheses;
- if it is a `data` or a record of MADE, and he has all relations that its constructors or fields ask for: he makes it himself.
"""

import re
from collections import defaultdict

from clauses import WORD, Definition, Module, binders, fail

# Records that a reader makes of values that he has: he compares two sizes, or says of whole calls what they answered.
MADE = [
    ("dumps", "WiderLaws", "HasMore"),
    ("explain", "FirstFault", "HasRead"),
    ("loader", "Wider", "NoNarrower"),
    ("store_laws", "InOrder", "WholeCombine"),
    ("store_laws", "InOrder", "WholeLook"),
]

OPENS, CLOSES = ("(", "{", "["), (")", "}", "]")


def parts(words):
    """What is between the arrows that are in no bracket."""
    depth, found = 0, [[]]
    for word in words:
        depth += (word in OPENS) - (word in CLOSES)
        if word == "→" and not depth:
            found.append([])
        else:
            found[-1].append(word)
    return found


def inside(words, at):
    """What the bracket has that opens here, without what it binds, and where it is closed."""
    depth, end = 1, at
    while depth:
        end += 1
        depth += (words[end] in OPENS) - (words[end] in CLOSES)
    first = at + 1
    if names := binders(words, at):
        first += len(names) + 1
    elif words[first] == "λ":
        first = next((k + 1 for k in range(first, end) if words[k].endswith(".")), end)
    return words[first:end], end


def sides(words):
    """The words that a statement gives, and those that it asks for."""
    *before, last = parts(words)
    given, asked, at = set(), set(), 0
    for gives, asks in map(sides, before):
        given, asked = given | asks, asked | gives
    while at < len(last):
        if last[at] in OPENS:
            within, at = inside(last, at)
            gives, asks = sides(within)
            given, asked = given | gives, asked | asks
        else:
            given.add(last[at])
        at += 1
    return given, asked


def closed(some, ways):
    """These, and all to which the ways lead from them."""
    found, waiting = set(some), list(some)
    for it in waiting:
        more = set(ways(it)) - found
        found |= more
        waiting += more
    return found


class Hypotheses:
    """`relations` has the relations, and of these `lists` those that are `data`; `gives` and `asks` have what a definition gives and asks for, and `fields` the
    relations that a relation gives."""

    def __init__(self, repository):
        self.repository, self.relations, self.lists = repository, set(), set()
        self.gives, self.asks = defaultdict(set), defaultdict(set)
        for module in repository.modules.values():
            for name, kind, text, head in module.texts:
                self.add(module, Definition(module.crate, module.name, name), kind, text, head)
        self.fields = {it: self.unfolded(self.gives[it]) for it in self.relations}
        self.laws = {(call, clause.name): self.statement(clause.text, call) for call in repository.laws & repository.calls for clause, _ in repository.named[call]}
        self.made = {Definition(*it) for it in MADE}
        self.had = self.fixed(self.made)
        if useless := self.made & self.fixed(set()) or self.made - self.relations:
            fail(f"MADE of .ci/hypotheses.py names {', '.join(it.name for it in useless)}, which a clause gives, or which is no relation")

    # what definitions give and ask for

    def add(self, module, it, kind, text, head):
        own, _, body = text.partition(" where")
        if kind:
            parameters = re.sub(r"[({][^(){}]* : Type \d[)}]", "", head + own.partition(it.name)[2])
            self.relations |= {it} if re.search(r"[({]\w|→", parameters) else set()
            self.lists |= {it} if kind == "data" else set()
            texts = re.split(r"\n +(?:pub )?\S+ : ", body)[1:]
        else:
            first, *equations = re.split(r"\n(?=[^ }])", text)
            texts = [line[Module.equals(line) + 1 :] for line in equations] if re.search(r"Type \d$", first.strip()) else []
        for statement in map(WORD.findall, texts):
            # (a constructor: who has it has what it asks for)
            for words in parts(statement)[:-1] if kind == "data" else [statement]:
                given, asked = sides(words)
                self.gives[it] |= self.named(given, module.scope) - {it}
                self.asks[it] |= self.named(asked, module.scope) - {it}

    def named(self, words, scope):
        return {it for it in self.repository.nodes({scope.find(word) for word in words} - {None}) if isinstance(it, Definition)}

    def statement(self, text, node):
        """The relations that a statement gives and those that it asks for, without abbreviations."""
        given, asked = (self.named(some, self.repository.scopes[node]) for some in sides(WORD.findall(text)))
        short = closed(given, lambda it: () if it in self.relations else self.gives[it])
        return short & self.relations, self.unfolded(asked.union(*(self.asks[it] for it in short - self.relations)))

    def unfolded(self, some):
        """These relations, and those that others of these abbreviate."""
        return closed(some, lambda it: () if it in self.relations else self.gives[it]) & self.relations

    # what a reader has

    def given(self):
        """What clauses and invariants give."""
        found = set()
        for call in self.repository.calls - self.repository.laws:
            for clause in (it for it, _ in self.repository.named[call] if it.kind == "ensures"):
                found |= self.statement(clause.text, call)[0]
        for it, text in self.repository.texts.items():
            own, _, name = it.name.partition(".")
            if name == "invariant" and (it.module.removeprefix("src/"), own) in self.repository.public[it.crate]:
                found |= self.statement(text, it)[0]
        return found

    def fixed(self, made):
        """All that a reader has who makes these records."""
        had, more = set(), self.given()
        while not more <= had:
            had = closed(had | more, lambda it: self.fields[it])
            more = {it for given, asked in self.laws.values() if asked <= had for it in given}
            more |= {it for it in (self.lists & self.relations) | made if self.fields[it] <= had | {it}}
        return had

    def lacking(self, it, seen=()):
        """What a reader has not who asks for this: this itself, or what he has not of what it is made of."""
        if it in self.had or it in seen:
            return set()
        if it not in self.lists | self.made:
            return {it}
        return set().union(*(self.lacking(part, (*seen, it)) for part in self.fields[it]))

    def unmet(self):
        """Of each law the relations that it asks for and no reader has."""
        found = defaultdict(set)
        for (call, _), (_, asked) in self.laws.items():
            for it in asked:
                found[call] |= self.lacking(it)
        return {call: sorted(some) for call, some in sorted(found.items()) if some}
