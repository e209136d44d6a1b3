"""The counts of .ci/house over definitions and proofs: lemmas that nothing cites, statements that stand twice, and wide lines.

It reads the layout of `rt fmt`, and names as antt does: what `use` brings in, what a file declares, and what a binder hides.
"""

import glob
import os
import re

TOP = os.path.realpath(os.path.join(os.path.dirname(os.path.abspath(__file__)), ".."))
# The files of a function's proof. `rt` looks in them for goals by name.
OF_FUNCTIONS = ("Answers", "Invariants", "Proof", "Send", "Sync")
NAME = r'[^\s(){}.;,@"«»]+'
WORD = re.compile(rf'"(?:[^"\\]|\\.)*"|[(){{}};,]|«[^»]*»|(?:{NAME})(?:\.(?:{NAME}))*|\.(?:{NAME})?')
DECLARES = re.compile(rf"(?P<marks>(?:(?:pattern|unfoldable|abbrev|axiom) )*(?:pub )?)(?:(?P<kind>data|record|ruleset) )?(?P<name>{NAME})(?= |$)")
OPENS, CLOSES = ("(", "{", "["), (")", "}", "]")


def read(file):
    with open(f"{TOP}/{file}", encoding="utf-8") as it:
        return it.read()


def files(endings, parts=("src", "specs", "proofs")):
    for at, folders, names in os.walk(f"{TOP}/crates"):
        folders[:] = sorted(it for it in folders if it != "out")
        inside = os.path.relpath(at, TOP)
        if len(inside.split("/")) > 2 and inside.split("/")[2] in parts:
            yield from (f"{inside}/{name}" for name in sorted(names) if name.endswith(endings))
    if ".rt" in endings:
        yield from sorted(os.path.relpath(it, TOP) for it in glob.glob(f"{TOP}/tests/**/*.rs", recursive=True))
    for ending, own in ((".rt", ".rs"), (".antt", ".antt.txt")):
        if ending in endings:
            yield from sorted(os.path.relpath(it, TOP) for it in glob.glob(f"{TOP}/bench/programs/*/**/*{own}", recursive=True))


def wide_lines():
    for file in files((".antt",), ("specs", "proofs")):
        for number, line in enumerate(read(file).splitlines(), 1):
            if len(line) > 120:
                yield f"{file}:{number}: {len(line)} characters"


# ---- files


class Declared:
    """A definition or a lemma: where it stands, the parameters of its sections, and its lines."""

    def __init__(self, module, line, begins, sections=()):
        self.module, self.line, self.kind, self.name = module, line, begins["kind"], begins["name"]
        self.sections = [it.removeprefix("module _ ").removesuffix(" where") for it in sections]
        self.lines = []

    def __str__(self):
        return f"{self.module.file}:{self.line}: {self.name}"

    def parts(self):
        """What stands behind its name to the end of its type, and the lines behind that: `unfolding` and equations."""
        inside = next((k for k, line in enumerate(self.lines) if k and not line.startswith(" ")), len(self.lines))
        first = "\n".join(self.lines[:inside])
        return first[DECLARES.match(first).end() :], self.lines[inside:]

    def type_of(self):
        return re.sub(r"^( \{[^}]*\})? :", "", self.parts()[0])

    def is_goal(self):
        """Whether `rt` looks for this in the file of a function's proof."""
        says_so = re.match(rf"\s+\w[\w-]*\.{re.escape(self.name)}\s*$", self.type_of()) or self.name.endswith("_spec") or self.name in ("send", "sync")
        return self.module.of_function and bool(says_so)


class Module:
    """A file of specs/ or proofs/: what its names stand for, each a (module, name), and what it declares."""

    def __init__(self, file):
        parts = re.sub(r"\.antt(\.txt)?$", "", file).split("/")
        parts = parts[1:] if parts[0] == "crates" else parts[2:]
        self.file, self.path = file, ".".join(["Rattle", *parts])
        self.crate, self.part, self.of_function = parts[0], parts[1], len(parts) > 3 and parts[-1] in OF_FUNCTIONS
        self.names, self.aliases, self.shown, self.declared, self.constructors = {}, {}, {}, [], {}
        self.take_lines(re.sub(r"(?m)(^|[ \t])--[^\n]*", "", read(file)).splitlines())
        self.own = {it.name: it for it in self.declared}
        for it in self.declared:
            for found in re.findall(rf"(?m)^  ({NAME}) :", "\n".join(it.lines)) if it.kind == "data" else []:
                self.constructors[found] = it
        self.names.update({name: (self.path, name) for name in [*self.own, *self.constructors]})
        for name in [it for it in self.names if "◌" in it]:
            for part in filter(None, name.split("◌")):
                self.names.setdefault(part, self.names[name])

    def take_lines(self, lines):
        sections, head = [], ""
        for number, line in enumerate(lines, 1):
            if not line.strip() or re.match(r"(pub )?mod |infix", line):
                continue
            if re.match(r"(pub )?use ", line):
                self.take_use(line.strip())
                continue
            while sections and len(line) - len(line.lstrip()) < sections[-1][0] and not head:
                sections.pop()
            own = sections[-1][0] if sections else 0
            text = line[own:]
            if text.startswith("module ") or head:
                head = f"{head} {text.strip()}".strip()
                if head.endswith(" where"):
                    sections.append((own + 2, head))
                    head = ""
                continue
            if begins := begins_one(text):
                self.declared.append(Declared(self, number, begins, [it for _, it in sections]))
            self.declared[-1].lines.append(text)

    def take_use(self, line):
        """Takes in `use A.B.{x, y as z}`, `use A.B` or `use A.B as m`."""
        public, path, listed, alias = re.fullmatch(r"(pub )?use ([^\s{]+?)(?:\.\{(.*)\}| as (\S+))?", line).groups()
        if listed is None:
            self.aliases[alias or path.rpartition(".")[2]] = path
        for item in (listed or "").split(","):
            name, _, here = (it.strip() for it in item.partition(" as "))
            self.names[here or name] = (path, name)
            if public:
                self.shown[here or name] = (path, name)

    def find(self, word):
        """What a word stands for, if it is none of the file's variables."""
        first, _, rest = word.partition(".")
        if found := self.names.get(word) or self.names.get(first):
            return found
        if rest and (first in self.aliases or first == "Rattle"):
            above, _, last = f"{self.aliases.get(first, first)}.{rest}".rpartition(".")
            return above, last
        return None


def begins_one(text):
    """The head of the declaration that begins with this line, if one does."""
    found = not text.startswith((" ", *CLOSES)) and DECLARES.match(text)
    return found if found and (found["marks"] or found["kind"] or re.match(r"( \{[^}]*\})? :( |$)", text[found.end() :])) else None


# ---- what a declaration cites


class Reader:
    """Collects the words of declarations that stand for something. A binder hides a name to the end of its brackets."""

    def __init__(self, module, is_constructor):
        self.module, self.is_constructor, self.found = module, is_constructor, []

    def cites(self, word, hidden):
        if not any(word.partition(".")[0] in names for names in hidden):
            self.found.append(word)

    def variables(self, words):
        """The variables of a pattern. A constructor in it is cited."""
        names = set()
        for k, word in enumerate(words):
            if re.fullmatch(rf"{NAME}(\..*)?", word) and words[k + 1 : k + 2] != ["="]:
                if self.is_constructor(self.module.find(word)):
                    self.found.append(word)
                else:
                    names.add(word)
        return names

    def term(self, text, bound=()):
        words, at = WORD.findall(text), 0
        hidden, lets = [set(bound)], [[]]
        while at < len(words):
            word, before, after = words[at], words[at - 1] if at else "", words[at + 1] if at + 1 < len(words) else ""
            if word in OPENS:
                names = bound_by(words, at)
                # (a parameter is bound to the end of what is around its bracket, a field to the end of its own)
                hidden[-1].update(() if before == "record" else names)
                hidden.append(set(names))
                lets.append([])
                at = self.case(words, at + 1, hidden) if word == "[" else at + len(names) + 1
                continue
            if word in CLOSES:
                hidden.pop()
                lets.pop()
            elif word == "|":
                hidden[-1] = hidden[-1] if len(hidden) == 1 else set()
                at = self.case(words, at + 1, hidden)
                continue
            elif word == "λ":
                at = self.lambda_of(words, at + 1, hidden)
            elif word == "let":
                end = first_outside(words, at + 1, (":", "="))
                lets[-1].append(self.variables(words[at + 1 : end]))
                at = end
            elif word == "in" and lets[-1]:
                hidden[-1] |= lets[-1].pop()
            elif after == ":" and before == ";":
                hidden[-1].add(word)
            elif not (after == "=" and before in ("{", ";")):  # (the label of a field)
                self.cites(word, hidden)
            at += 1

    def case(self, words, at, hidden):
        """Where the body of a case begins, whose pattern stands here; here, if none does."""
        end = first_outside(words, at, ("↦", "|", "]"))
        if words[end : end + 1] != ["↦"]:
            return at
        hidden[-1] |= self.variables(words[at:end])
        return end + 1

    def lambda_of(self, words, at, hidden):
        """Takes in the variables of a λ, and returns where its dot stands."""
        end = first_outside(words, at, (".",))
        names, at = [], at
        while at < end:
            if words[at] == ":":
                closes = first_outside(words, at, CLOSES)
                self.term(" ".join(words[at + 1 : closes]), set().union(*hidden))
                at = closes
            names.append(words[at])
            at += 1
        hidden[-1] |= self.variables([it for it in names if it != "record"])
        return end

    def declaration(self, it, bound=()):
        bound = set(bound)
        for section in it.sections:
            self.term(section, bound)
            bound |= parameters(section)
        if it.kind:
            head, _, fields = "\n".join(it.lines).partition(" where")
            head = head[DECLARES.match(head).end() :]
            self.term(head, bound)
            bound |= parameters(head)
            for field in re.split(r"\n  (?=[^\s(){}])", fields):
                label, _, type_of = field.partition(" : ")
                self.term(type_of, bound)
                bound.add(label.removeprefix("pub ").strip())
            return
        self.term(it.type_of(), bound)
        for equation in re.split(r"\n(?=[^ )}\]])", "\n".join(it.parts()[1])):
            self.equation(equation, bound)

    def equation(self, text, bound):
        if text.startswith("unfolding "):
            for word in text.split()[1:]:
                self.cites(word, [bound])
            return
        body, helpers = without_where(text)
        words = WORD.findall(body)
        equals = first_outside(words, 0, ("=",))
        bound = bound | {it.name for it in helpers} | self.variables(words[1:equals])
        self.term(" ".join(words[equals + 1 :]), bound)
        for it in helpers:
            self.declaration(it, bound)


def first_outside(words, at, wanted):
    """Where one of these words stands first, outside of the brackets that open from here."""
    depth = 0
    for k in range(at, len(words)):
        if not depth and words[k] in wanted:
            return k
        depth += (words[k] in OPENS) - (words[k] in CLOSES)
    return len(words)


def bound_by(words, at):
    """The names of `(x y : T)`, whose bracket stands here; none where it binds nothing."""
    end = at + 1
    while end < len(words) and re.fullmatch(NAME, words[end]) and words[end] not in (":", "=", *OPENS):
        end += 1
    return words[at + 1 : end] if words[at] != "[" and words[end : end + 1] == [":"] else []


def parameters(text):
    return {it for names in re.findall(r"[({]([^:(){}]*) :", text) for it in names.split()}


def without_where(text):
    """An equation without its `where`, and what is declared there."""
    body, where, inner = re.match(r"(.*?)(?:(\s+where)\n(.*))?\Z", text, re.S).groups()
    found = []
    for line in inner.split("\n") if where else []:
        line = line[len(inner) - len(inner.lstrip()) :]
        if begins := begins_one(line):
            found.append(Declared(None, 0, begins))
        found[-1].lines.append(line)
    return body, found


# ---- statements without the names of their variables


def trees(words):
    """Words as a tree: a bracket is a list that begins with it."""
    stack = [[]]
    for word in words:
        if word in OPENS:
            stack.append([word])
        elif word in CLOSES:
            inner = stack.pop()
            stack[-1].append(inner)
        else:
            stack[-1].append(word)
    return stack[0]


def flat(tree):
    for it in tree:
        yield from flat(it[1:]) if isinstance(it, list) else (it,)


def binds(tree):
    """Whether this begins with a bracket `(x y : T)`."""
    return bool(tree) and isinstance(tree[0], list) and tree[0][0] in "({" and ":" in tree[0] and all(isinstance(it, str) for it in tree[0][: tree[0].index(":")])


class Variable:
    def __init__(self, type_of):
        self.is_type = type_of[:1] == ["Type"]


class Statement:
    """A lemma's type without the names of its variables: equal texts are equal statements. A premise that nothing names is no variable."""

    def __init__(self, it, key):
        self.key, self.conclusion = key, []
        self.words = self.type_of([*(group for section in it.sections for group in trees(WORD.findall(section))), *trees(WORD.findall(it.type_of()))], {})

    def text(self):
        numbers = {}
        return " ".join(it if isinstance(it, str) else str(numbers.setdefault(it, len(numbers))) for it in self.words)

    def is_fact(self):
        """A lemma says something of its variables. A function gives a value of a type that names none."""
        return "≡" in self.conclusion or any(isinstance(it, Variable) and not it.is_type for it in self.conclusion)

    def bind(self, group, scope):
        """Takes in the names of a bracket `(x y : T)`: its variables, and T."""
        at = group.index(":")
        type_of = self.type_of(group[at + 1 :], scope)
        scope.update({name: Variable(type_of) for name in group[1:at]})
        return [scope[name] for name in group[1:at]], type_of

    def type_of(self, tree, scope):
        premises, scope = [], dict(scope)
        while True:
            if binds(tree) and tree[1:2] != ["×"]:
                names, type_of = self.bind(tree[0], scope)
                premises += [(name, type_of) for name in names]
                tree = tree[2 if tree[1:2] == ["→"] else 1 :]
                continue
            end = next((k for k, it in enumerate(tree) if it in ("→", "λ", "let", "elim")), len(tree))
            if tree[end : end + 1] != ["→"]:
                break
            premises.append((None, self.expression(tree[:end], scope)))
            tree = tree[end + 1 :]
        words = self.conclusion = self.expression(tree, scope)
        for name, type_of in reversed(premises):
            words = [*(("Π", name) if name in words else ()), *type_of, "→", *words]
        return words

    def expression(self, tree, scope):
        if len(tree) == 1 and tree[0][0] == "(" and not binds(tree) and "," not in tree[0]:
            return self.type_of(tree[0][1:], scope)
        words, scope = [], dict(scope)
        for at, it in enumerate(tree):
            if it == "λ":
                end = first_outside(tree, at, (".",))
                names = [Variable(()) for _ in flat(tree[at + 1 : end])]
                return [*words, "λ", *names, ".", *self.type_of(tree[end + 1 :], scope | dict(zip(flat(tree[at + 1 : end]), names)))]
            if binds([it]):
                names, type_of = self.bind(it, scope)
                words += [word for name in names for word in ("Σ", name, *type_of)]
            elif isinstance(it, list):
                label = it[1:3] if it[2:3] == ["="] else []
                words += [it[0], *label]
                for k, part in enumerate(divided(it[1 + len(label) :])):
                    words += [*("," * bool(k)), *self.type_of(part, scope)]
                words.append("end")
            else:
                first, dot, rest = it.partition(".")
                words += [scope[first], dot + rest] if first in scope else [self.key(it)]
        return words


def divided(tree):
    parts = [[]]
    for it in tree:
        if it == ",":
            parts.append([])
        else:
            parts[-1].append(it)
    return parts


# ---- all of them


class Repository:
    """All of specs/ and proofs/, and what each declaration cites."""

    def __init__(self):
        order = [it.split(":")[0].split()[0] for it in read("crates.txt").splitlines() if re.match(r"\w", it)]
        found = [Module(file) for file in files((".antt",), ("specs", "proofs")) if not file.endswith("/Lib.antt")]
        self.modules = {it.path: it for it in sorted(found, key=lambda it: order.index(it.crate) if it.crate in order else len(order))}
        self.crates, self.pairs, self.cites = {it.crate for it in found}, {}, {}
        for it in self.all():
            reader = Reader(it.module, self.is_constructor)
            reader.declaration(it)
            self.pairs[it] = {it.module.find(word) for word in reader.found} - {None}
            self.cites[it] = {self.declared(pair) for pair in self.pairs[it]} - {None, it}

    def all(self):
        return [it for module in self.modules.values() for it in module.declared]

    def origin(self, pair):
        """The (module, name) that modules hand on under this one."""
        while pair and (module := self.modules.get(pair[0])) and pair[1] in module.shown:
            pair = module.shown[pair[1]]
        return pair

    def declared(self, pair):
        """The declaration that this stands for; None where it is the kit's, or made by `rt`."""
        path, name = self.origin(pair)
        if module := self.modules.get(path):
            return module.own.get(name) or module.constructors.get(name)
        above, _, last = path.rpartition(".")
        return self.modules[above].own.get(last) if above in self.modules else None

    def is_constructor(self, pair):
        path, name = self.origin(pair) or ("", "")
        return path in self.modules and name in self.modules[path].constructors

    def key(self, module, word):
        """What a word stands for: a name of the kit whatever module hands it on, any other name as it is declared."""
        pair = self.origin(module.find(word))
        if not pair:
            return word
        is_own = pair[0].startswith("Rattle.") and pair[0].split(".")[1] in self.crates
        return ".".join(pair) if is_own else f"{word.partition('.')[0]}.{pair[1]}" if "." in word else pair[1]

    def twice(self):
        seen = {}
        for it in self.all():
            if not it.kind and not it.is_goal():
                statement = Statement(it, lambda word, module=it.module: self.key(module, word))
                if statement.is_fact() and seen.setdefault(statement.text(), it) is not it:
                    yield f"{it} states what {seen[statement.text()]} states"

    def of_code(self):
        """What the code names of proofs/, each a (module, name)."""
        for file in files(".rt", ("src",)):
            text, own = read(file), file.split("/")[1]
            for crate, path in re.findall(r"\b(\w+)::proofs::([\w:'-]+)", text):
                above, _, name = path.replace("::", ".").rpartition(".")
                yield f"Rattle.{own if crate == 'crate' else crate}.proofs.{above}", name
            for path, name, listed in re.findall(r"\b(Rattle\.\w+\.proofs\.[\w.]*\w)\.(?:([\w'-]+)|\{([^}]*)\})", text):
                yield from ((path, it.split(" as ")[0].strip()) for it in (listed or name).split(","))

    def uncited(self):
        named = set(self.of_code())
        roots = [self.declared(it) for it in named] + [it for it in self.all() if it.module.part != "proofs" or it.is_goal()]
        cited, left = set(), roots
        while left:
            it = left.pop()
            if it and it not in cited:
                cited.add(it)
                named |= self.pairs[it]
                left += self.cites[it]
        yield from (str(it) for it in self.all() if it not in cited)
        for module in self.modules.values():
            if module.path.endswith(".proofs.Export"):
                yield from (f"{module.file}: {name}" for name in module.shown if (module.path, name) not in named)
