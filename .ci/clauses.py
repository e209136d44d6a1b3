"""Reads the repository as a graph: which definitions of specs/ each public call, each type and each definition cites.

It relies on the layout of `rt fmt`, and reads names as the two languages do: what `use` and `ghost use` bring in, what a file declares, and
what a binder hides. Proofs and bodies are not read.
"""

import os
import re
import sys
from collections import defaultdict, namedtuple

# A definition of specs/, or a ghost member of a type or a trait of src/, whose module begins with src/; a type or a trait of the code; a call,
# or a public type as a beginning of its own; a module of the kit.
Definition = namedtuple("Definition", "crate module name")
Type = namedtuple("Type", "crate module name")
Call = namedtuple("Call", "crate module name")
Kit = namedtuple("Kit", "crate module")

# Ghost members of an impl that are proofs.
PROOFS = ("laws", "inverse_ok")

WORD = re.compile(r'"(?:[^"\\]|\\.)*"|[(){}\[\];,]|[^\s(){}\[\];,"]+')
NAME = re.compile(r"[^\W\d][\w'?!-]*(?:×\w*)?")


def fail(text):
    sys.exit(f"believed: {text}")


def read(file):
    with open(file, encoding="utf-8") as it:
        return it.read()


def files_below(folder, ending):
    found = (os.path.relpath(f"{at}/{file}", folder) for at, _, files in os.walk(folder) for file in files if file.endswith(ending))
    return sorted(it[: -len(ending)] for it in found)


class Scope:
    """What names stand for: each the (module, name) of its declaration; and other names of modules."""

    def __init__(self, outer=None):
        self.names = dict(outer.names) if outer else {}
        self.aliases = dict(outer.aliases) if outer else {}

    def take(self, use):
        """Takes in `A.B.{x, y as z}` or `A.B as m`."""
        path, listed, alias = re.fullmatch(r"([\w.-]+?)(?:\.\{([^}]*)\}|\s+as\s+([\w-]+))?", use.strip()).groups()
        if alias:
            self.aliases[alias] = path
        for item in (listed or "").split(","):
            name, _, other = item.partition(" as ")
            self.names[(other or name).strip()] = (path, name.strip())

    def find(self, word):
        first, _, rest = word.partition(".")
        if first in self.names:
            return self.names[first]
        if first in self.aliases:
            return self.aliases[first], rest.partition(".")[0]
        return self.names.get("◌>>=◌" if word == "←" else f"◌{word}◌")


def binders(words, at):
    """The names of `(x y : T)`, whose bracket stands here; none where it binds nothing."""
    end = at + 1
    while end < len(words) and NAME.fullmatch(words[end]):
        end += 1
    return words[at + 1 : end] if end < len(words) and words[end] == ":" else []


def cited(text, scope, bound=()):
    """The (module, name) of each name that a text cites, where these are bound. A binder hides a name to the end of its brackets."""
    words, found = WORD.findall(text), set()
    hidden, lets, at = [set(bound)], [[]], 0
    while at < len(words):
        word, after = words[at], words[at + 1 : at + 2]
        if word in "({[":
            names = binders(words, at)
            hidden[-1].update(names)
            hidden.append(set())
            lets.append([])
            at += len(names)
        elif word in ")}]":
            hidden.pop()
            lets.pop()
        elif word == "λ":
            while not words[at].endswith(".") and words[at + 1] != "(":
                at += 1
                hidden[-1].add(words[at].rstrip("."))
        elif word == "let":
            end = next(k for k in range(at, len(words)) if words[k] in ":=")
            lets[-1].append(words[at + 1 : end])
            at = end
        elif word == "in" and lets[-1]:
            hidden[-1].update(lets[-1].pop())
        elif after == ["←"]:
            hidden[-1].add(word)
        elif after == ["="] and len(hidden) > 1:
            pass  # (the label of a field)
        elif not any(word.partition(".")[0] in names for names in hidden):
            found.add(scope.find(word))
        at += 1
    return found - {None}


class Module:
    """A file of specs/: for each definition how many lines it has, without comments, and what it cites; and the `texts` of `definitions`."""

    def __init__(self, crate, name, file):
        self.crate, self.name, self.path = crate, name, f"Rattle.{crate}.specs.{name.replace('/', '.')}"
        self.lines, self.cites, self.constructors = defaultdict(int), defaultdict(set), {}
        self.parts = {}
        self.scope = Scope()
        lines = [it for it in read(file).splitlines() if it.strip() and not re.match(r"\s*--|infix", it)]
        for line in lines:
            if re.match(r"(pub )?use ", line):
                self.scope.take(line.partition("use ")[2])
        self.texts = definitions = list(self.definitions([it for it in lines if not re.match(r"(pub )?use ", it)]))
        for name, kind, text, _ in definitions:
            self.scope.names[name] = (self.path, name)
            for found in re.findall(r"^ +(\S+) :", text, re.M) if kind == "data" else []:
                self.constructors[found] = name
                self.scope.names[found] = (self.path, name)
        for name, kind, text, head in definitions:
            self.lines[name] += len(text.splitlines())
            cites = self.cites_of_type if kind in ("record", "data") else self.cites_of_value
            self.cites[name] |= cites(name, text, head) - {(self.path, name)}

    @staticmethod
    def definitions(lines):
        """Each definition: its name and kind, its text, and the line of the module of parameters that it stands in."""
        found, head = None, ""
        for line in lines:
            if line.startswith("module "):
                head = line
                continue
            if not line.startswith(" "):
                head = ""
            line = line.removeprefix("  ") if head else line
            begins = re.match(r"(?:(?:abbrev|unfoldable) )?(?:pub )?(?:(record|data) )?(\S+) ", line)
            if begins and re.match(r"(abbrev|unfoldable|pub|record|data) |\S+ : ", line):
                if found:
                    yield found
                found = (begins[2], begins[1], line + "\n", head)
            elif found:
                found = (*found[:2], found[2] + line + "\n", found[3])
        if found:
            yield found

    @staticmethod
    def parameters(head):
        return {it for names in re.findall(r"[({]([^:(){}]*) :", head) for it in names.split()}

    def cites_of_type(self, name, text, head):
        """What a record or a data cites: a field of a record hides its name for those behind it."""
        own, _, body = text.partition(" where")
        found = cited(head, self.scope) | cited(own.partition(name)[2], self.scope, self.parameters(head))
        bound = self.parameters(head) | self.parameters(own)
        parts, fields = re.split(r"\n +(?:pub )?(\S+) : ", body), []
        for label, type_of in zip(parts[1::2], parts[2::2]):
            fields.append((label, cited(type_of, self.scope, bound)))
            bound |= {label}
        # (a record about nothing whose fields state nothing is what its fields are)
        if not head and re.match(r"(pub )?record \S+ : ", own) and not re.search(r"[≡≢≤<⊥↔]", body):
            self.parts[name] = fields
        return found.union(*(some for _, some in fields))

    def cites_of_value(self, name, text, head):
        """What a function cites: its type, and each equation, whose patterns hide their variables."""
        found = cited(head, self.scope)
        first, *equations = re.split(r"\n(?=[^ }])", text)
        found |= cited(first.partition(" : ")[2], self.scope, self.parameters(head))
        for equation in equations:
            equals = self.equals(equation)
            bound = self.parameters(head)
            for word in WORD.findall(equation[:equals]):
                known = self.scope.find(word)
                if known and not word[0].islower() or "." in word:
                    found.add(known)
                elif NAME.fullmatch(word) and word != name:
                    bound.add(word)
            found |= cited(equation[equals + 1 :], self.scope, bound)
        return found - {None}

    @staticmethod
    def equals(equation):
        """Where the = of an equation stands: the first outside of brackets."""
        depth = 0
        for found in re.finditer(r"[(){}\[\]]|(?<=\s)=(?=\s)", equation):
            if found[0] == "=" and depth == 0:
                return found.start()
            depth += (found[0] in "({[") - (found[0] in ")}]")
        fail(f"an equation has no =: {equation}")


def closing(text, at):
    """Where the bracket that stands here is closed."""
    depth = 0
    for found in re.compile(r"[(){}\[\]]").finditer(text, at):
        depth += (found[0] in "({[") - (found[0] in ")}]")
        if depth == 0:
            return found.start()
    fail(f"a bracket is not closed: {text[at : at + 80]}")


def plain(text):
    """A text of Rust without comments, strings, characters, and items for tests."""
    form = r'//[^\n]*|/\*.*?\*/|b?"(?:[^"\\]|\\.)*"|b?\'(?:[^\'\\\n]|\\[^\'\n]*.)\'(?!\w)'
    text = re.sub(form, lambda it: "" if it[0].startswith("/") else '""' if it[0].endswith('"') else "0", text, flags=re.S)
    while found := re.search(r"#\[cfg\(test\)\]", text):
        end = re.compile(r"[;{]").search(text, found.end()).start()
        text = text[: found.start()] + text[(closing(text, end) if text[end] == "{" else end) + 1 :]
    # (a macro has no clause; those of what it makes are read where it is used)
    while found := re.search(r"(?:#\[macro_export\]\s*)?\bmacro_rules! \w+ (?=\{)", text):
        text = text[: found.start()] + text[closing(text, found.end()) + 1 :]
    return text


def items_of_use(path, before=""):
    """The (module, name, name here) of each item of a `use`."""
    grouped = re.fullmatch(r"(.*?)(?:::)?\{(.*)\}", path.strip(), re.S)
    if grouped:
        before += f"{grouped[1]}::" if grouped[1] else ""
        for it in re.findall(r"[^,{}]+(?:\{[^{}]*\})?", grouped[2]):
            if it.strip():
                yield from items_of_use(it, before)
        return
    name, _, other = path.partition(" as ")
    module, _, last = f"{before}{name.strip()}".rpartition("::")
    yield module, last, (other or last).strip()


# A clause: `requires` or `ensures`, its name, which may be empty, and its text.
Clause = namedtuple("Clause", "kind name text")
Function = namedtuple("Function", "is_public signature clauses scope is_law")
Block = namedtuple("Block", "kind name head body")


class Source:
    """A file of src/: its types, its functions with their clauses, its traits and impls, and what its names stand for."""

    ITEM = re.compile(
        r"\s*(?:#!?\[|(?P<pub>pub(?P<inside>\([\w ]+\))? )?(?P<what>ghost use|use|mod|const|static|type|struct|enum|trait|(?:unsafe )?impl|"
        r'(?:const )?(?:unsafe )?(?:extern "" )?fn)\b)'
    )

    def __init__(self, crate, module, file):
        self.crate, self.module = crate, module
        self.types, self.functions, self.blocks = {}, {}, []
        self.used, self.shown, self.public, self.public_modules = {}, {}, set(), []
        self.ghosts = Scope()
        text, at = plain(read(file)), 0
        while text[at:].strip():
            found = self.ITEM.match(text, at)
            if not found:
                fail(f"{crate}/src/{module}.rt: what is this item? {text[at:].strip()[:80]}")
            is_public = bool(found["pub"]) and not found["inside"]
            at = self.read_item(found["what"] or "[", text, found.end(), is_public)

    def read_item(self, what, text, at, is_public):
        """Takes in an item, whose first word ends here, and returns where it ends."""
        if what == "[":
            return closing(text, at - 1) + 1
        if what.endswith("fn"):
            return self.read_function(text, at, is_public, self.functions, self.ghosts)
        name = re.compile(r"\s*(\w*)").match(text, at)[1]
        opens = end = re.compile(r"[;{]").search(text, at).start()
        if what.endswith("use") or what in ("const", "static", "type"):
            end = at
            while text[end] != ";":
                end = closing(text, end) + 1 if text[end] in "([{" else end + 1
        end = closing(text, end) + 1 if text[end] == "{" else end + 1
        inside = text[at : end - 1]
        if what == "ghost use":
            self.ghosts.take(inside)
        elif what == "use":
            for module, item, here in items_of_use(inside):
                self.used[here] = (module, item)
                if is_public:
                    self.shown[here] = (module, item)
        elif what == "mod":
            self.public_modules += [name] if is_public else []
        elif what.endswith("impl"):
            self.blocks.append(Block("impl", "", text[at:opens], text[opens + 1 : end - 1]))
        elif what not in ("const", "static"):
            self.types[name] = Type(self.crate, self.module, name)
            self.public |= {name} if is_public else set()
            self.blocks.append(Block(what, name, text[at:opens], text[opens + 1 : end - 1] or inside))
        return end

    @staticmethod
    def read_function(text, at, is_public, into, scope):
        """Takes in a function, whose name stands here, and returns where it ends."""
        name = re.compile(r"\s*(\w+)").match(text, at)[1]
        signature, clauses = "", []
        form = re.compile(r"\b(requires|ensures|decreases|ghost)\*?\s*(?:\.\.\s*)?(\w*)\s*:?\s*\{|[{;(\[]")
        while True:
            found = form.search(text, at)
            signature += text[at : found.start()]
            if found[0] in "{;":
                end = closing(text, found.start()) + 1 if found[0] == "{" else found.end()
                does_nothing = found[0] == "{" and not text[found.start() + 1 : end - 1].strip()
                is_law = bool(clauses) and does_nothing and signature.rstrip().endswith("()")
                into[name] = Function(is_public, signature, clauses, scope, is_law)
                return end
            at = closing(text, found.end() - 1) + 1
            if found[0] in "([":
                signature += text[found.start() : at]
            elif found[1] != "decreases":
                clauses.append(Clause(found[1], found[2], text[found.end() : at - 1]))

    def members(self, body):
        """The ghost members of a trait or an impl, each with its name and text, and its functions."""
        scope, ghosts, functions, at = Scope(self.ghosts), [], {}, 0
        form = re.compile(r"\bghost use ([^;]*);|\bghost (\w+)\b[^{;]*|\b(pub )?(?:const )?(?:unsafe )?fn\b|[\[{]")
        while found := form.search(body, at):
            at = found.end()
            if found[1]:
                scope.take(found[1])
            elif found[2]:
                while body[at] == "{":
                    at = closing(body, at) + 1
                    at = re.compile(r"\s*(=\s*(?=\{))?").match(body, at).end()
                ghosts.append((found[2], body[found.end() : at]))
            elif found[0] in "[{":
                at = closing(body, found.start()) + 1
            else:
                at = self.read_function(body, at, bool(found[3]), functions, scope)
        return ghosts, functions, scope


def names_in(text):
    """The fields that a text takes or gives, and its words that begin with a capital, as variants do."""
    return {it for some in re.findall(r"\.(\w+)|\b(\w+)(?= = )|\b([A-Z]\w*)", text) for it in some if it}


def fields_of(body):
    """The fields of a struct and the variants of an enum, each with its name and text."""
    depth, begins, found = 0, 0, []
    for at, it in enumerate(body + ","):
        depth += (it in "({[<") - (it in ")}]>")
        if it == "," and not depth:
            found.append(body[begins:at])
            begins = at + 1
    named = (re.match(r"\s*(?:#\[[^\]]*\]\s*)*(?:pub(?:\([^)]*\))? )?(\w+)", it) for it in found)
    return [(it[1], text) for it, text in zip(named, found) if it]


class Repository:
    """`cites` leads from each node to those that it cites; `inner` from a type to what only the way cites in which its values lie in memory:
    the view, the codes and the invariant of its model, or its ghost fields. `calls` are the public calls and types. A law is a function that
    takes nothing and does nothing, so that its clauses are all that it is; `hidden` are the laws that users of the crate can't name; `ghosts`
    has of each ghost member of src/ how many lines it has, `texts` its text. `parts` has of a record, a struct or an enum what each of its fields or
    variants leads to, and of a type what its impl of a trait says: these count in `needed` alone. `private` are the ghost members of the models of
    structs without a public field. `named` has of each call its clauses, each with what it names itself; of these calls `laws` are laws,
    and `types` are types. `scopes` has what names stand for in a call's clauses and in a ghost member of an impl. `type_lines` has how many
    lines a type or a trait of the code has."""

    def __init__(self, top):
        self.crates, self.libraries, self.modules, self.sources = [], [], {}, {}
        self.cites, self.inner, self.calls, self.hidden, self.ghosts = defaultdict(set), defaultdict(set), set(), set(), {}
        for crate, kind in re.findall(r"^(\w+)([^:#\n]*):", read(f"{top}/crates.txt"), re.M):
            self.crates.append(crate)
            folder = f"{top}/crates/{crate}"
            for name in files_below(f"{folder}/specs", ".antt"):
                if name != "Lib":
                    self.modules[crate, name] = Module(crate, name, f"{folder}/specs/{name}.antt")
            if os.path.isfile(f"{folder}/src/lib.rt"):
                self.libraries.append(crate)
                for name in files_below(f"{folder}/src", ".rt"):
                    self.sources[crate, name] = Source(crate, name, f"{folder}/src/{name}.rt")
        self.texts, self.named, self.laws, self.types = {}, defaultdict(list), set(), set()
        self.scopes, self.signatures, self.type_lines = {}, {}, {}
        self.parts, self.words, self.private = defaultdict(list), defaultdict(set), set()
        self.public = {crate: self.public_of(crate, "lib") for crate in self.libraries}
        for module in self.modules.values():
            for name, pairs in module.cites.items():
                self.cites[Definition(module.crate, module.name, name)] |= self.nodes(pairs)
        # (a record that no definition cites is a list of statements)
        of_values = set().union(*self.cites.values())
        for module in self.modules.values():
            for name, _, text, _ in module.texts:
                it = Definition(module.crate, module.name, name)
                if name in module.parts and it in of_values:
                    self.parts[it] = [((label,), self.nodes(pairs)) for label, pairs in module.parts[name]]
                else:
                    self.words[it] |= names_in(text)
        self.modelled = {}
        for source in self.sources.values():
            for name, function in source.functions.items():
                self.add_call(source, name, function, (source.module, name) in self.public[source.crate])
            for block in source.blocks:
                if block.kind == "impl":
                    self.add_impl(source, block)
        for source in self.sources.values():
            for block in source.blocks:
                if block.kind != "impl":
                    self.add_type(source, block)

    # what is public

    def public_of(self, crate, module):
        """The public items of a module, each the (module, name) of its declaration."""
        source, below = self.sources[crate, module], "" if module == "lib" else f"{module}/"
        found = {(module, name) for name in source.public}
        found |= {(module, name) for name, it in source.functions.items() if it.is_public}
        for name in source.public_modules:
            found |= self.public_of(crate, below + name)
        return found | {self.declared(crate, module, *it) for it in source.shown.values()} - {None}

    def declared(self, crate, module, path, name):
        """Where an item is declared that a `use` of this module names: (module, name), if in this crate."""
        parts = path.split("::") if path else []
        below = "" if module == "lib" else f"{module}/"
        if parts and parts[0] in ("crate", "super"):
            parts, below = parts[1:], "" if parts[0] == "crate" else "/".join(module.split("/")[:-1] + [""]) * ("/" in module)
        elif parts and parts[0] == "self":
            parts = parts[1:]
        elif parts and (crate, below + parts[0]) not in self.sources:
            return None
        at = (below + "/".join(parts)).rstrip("/") or "lib"
        source = self.sources.get((crate, at))
        if not source or name in source.types or name in source.functions:
            return (at, name) if source else None
        return self.declared(crate, at, *source.used[name]) if name in source.used else None

    def is_public(self, it):
        return (it.module, it.name) in self.public[it.crate]

    # names to nodes

    def nodes(self, pairs):
        return {self.node(*it) for it in pairs} - {None}

    def node(self, path, name):
        """What a name of a module is: a definition, a type, or the kit's; None for a constant of the code."""
        root, *parts = path.split(".")
        if root != "Rattle" or parts[0] not in self.crates:
            return Kit(parts[0], ".".join(parts[2:])) if root == "Rattle" else Kit(root, ".".join(parts))
        crate, _, *rest = parts
        if rest[0] in ("declared", "contracts"):
            rest.append(name)
            for at in range(len(rest) - 1, 0, -1):
                found = self.sources.get((crate, "/".join(rest[1:at]) or "lib"))
                if found and rest[at] in found.types:
                    return found.types[rest[at]]
            return None
        module = self.modules.get((crate, "/".join(rest)))
        if module and module.constructors.get(name, name) in module.lines:
            return Definition(crate, module.name, module.constructors.get(name, name))
        if module and name in module.scope.names:
            return self.node(*module.scope.names[name])  # (`pub use`)
        fail(f"nothing is known of {path}.{name}")

    def types_in(self, text, source, own=None):
        """The types and traits of the repository that a text of Rust names."""
        found = {own} if own and re.search(r"\b[Ss]elf\b", text) else set()
        for name in set(re.findall(r"(?<!\.)\b[A-Z]\w*", text)):
            crate, known = source.crate, None
            if name in source.types:
                known = (source.module, name)
            elif name in source.used:
                path, last = source.used[name]
                root, _, below = path.partition("::")
                if root in self.libraries:
                    crate, known = root, self.declared(root, "lib", below or "crate", last)
                else:
                    known = self.declared(crate, source.module, path, last)
            if known:
                found.add(self.sources[crate, known[0]].types.get(known[1]))
        return found - {None}

    def cited_in(self, text, scope, source, bound=(), own=None):
        """What a clause or a ghost member cites; it may name types as Rust does."""
        return self.nodes(cited(text, scope, bound)) | self.types_in(text, source, own)

    def types_named(self, call, text):
        """The types of those values of a call that a text names. `IfOk result (λ _. ..)` names none of the result."""
        signature, source, own = self.signatures[call]
        text = re.sub(r"\bresult \(λ _\.", "", text)
        opens = signature.index("(")
        ends = closing(signature, opens)
        values = [*fields_of(signature[opens + 1 : ends]), ("result", signature[ends + 1 :])]
        values = [("self" if re.match(r"\s*&?\s*(mut )?self\b", it) else name, it) for name, it in values]
        return {it for name, type_of in values if re.search(rf"\b{name}\b", text) for it in self.types_in(type_of, source, own)}

    # what each cites

    def add_call(self, source, name, function, is_public, own=None):
        node = Call(source.crate, source.module, name)
        self.scopes[node] = function.scope
        self.signatures[node] = (function.signature, source, own)
        self.cites[node] |= self.types_in(function.signature, source, own)
        parameters = set(re.findall(r"\b(\w+)\s*:(?!:)", function.signature))
        for clause in function.clauses:
            named = self.cited_in(clause.text, function.scope, source, parameters, own)
            self.cites[node] |= named
            self.words[node] |= names_in(clause.text)
            self.named[node].append((clause, named))
        self.laws |= {node} if function.is_law else set()
        self.calls |= {node} if is_public else set()
        self.hidden |= {node} if function.is_law and not is_public else set()

    def add_impl(self, source, block):
        head = block.head.replace("->", "").strip()
        while re.match("<.*>", head, re.S):
            head = re.sub(r"<[^<>]*>", "", head, count=1).strip()
        trait, is_of, of = head.partition(" for ")
        own = next(iter(self.types_in(re.match(r"[\w&' ]*", of or trait)[0], source)), None)
        if not own:
            return
        self.cites[own] |= self.types_in(block.head, source) - {own}
        ghosts, functions, scope = source.members(block.body)
        is_model = bool(is_of) and trait.endswith("Model")
        of_trait = self.types_in(trait, source) if is_of and not is_model else set()
        self.parts[own] += [((it,), self.types_in(block.head, source) - {own}) for it in of_trait]
        for name, text in ghosts:
            if name not in PROOFS:
                into = self.inner if is_model and name != "Value" else self.cites
                node = self.add_ghost(source, own, trait if is_of else "", name, text, self.cited_in(text, scope, source) - {own}, into)
                self.scopes[node] = scope
                self.parts[own] += [((it, name), {node}) for it in of_trait]
        if is_model:
            self.modelled[own] = [(Definition(own.crate, f"src/{source.module}", f"{own.name}.{name}"), text) for name, text in ghosts]
        for name, function in functions.items():
            self.add_call(source, f"{own.name}::{name}", function, self.is_public(own) and (function.is_public or bool(is_of)), own)

    def add_ghost(self, source, own, trait, name, text, cited, into):
        """A ghost member says what its type means: a definition, which the type cites. Two impls of a type may name theirs
        alike. `Value` says of a model what type it has, and no more."""
        if name == "Value":
            into[own] |= cited
            return None
        trait = re.match(r"\w*", trait)[0]
        of = f"{own.name} as {trait}" if trait not in ("", "Model") else own.name
        node = Definition(own.crate, f"src/{source.module}", f"{of}.{name}")
        self.ghosts[node] = max(1, sum(bool(it.strip()) for it in text.splitlines()))
        self.texts[node] = text
        self.words[node] |= names_in(text)
        self.cites[node] |= cited
        into[own].add(node)
        return node

    def add_type(self, source, block):
        """A trait cites what its members say. A type without a model is the record of its fields; one with a model leads to the types of those
        fields that its view names."""
        own = source.types[block.name]
        self.type_lines[own] = sum(bool(it.strip()) for it in f"{block.head}{{{block.body}}}".splitlines())
        self.cites[own] |= self.types_in(block.head, source) - {own}
        if self.is_public(own):
            self.calls.add(Call(*own))
            self.types.add(Call(*own))
            self.cites[Call(*own)].add(own)
        if block.kind == "trait":
            ghosts, functions, scope = source.members(block.body)
            for name, text in ghosts:
                node = self.add_ghost(source, own, "", name, text, self.cited_in(text, scope, source) - {own}, self.cites)
                self.parts[own].append(((name,), {node}))
            for name, function in functions.items():
                self.add_call(source, f"{block.name}::{name}", function, self.is_public(own), own)
        elif own in self.modelled:
            if block.kind == "struct" and not re.search(r"\bpub (?!\()", block.body):
                self.private |= {node for node, _ in self.modelled[own]}
            for name, type_of in re.findall(r"(\w+)\s*:\s*([^\n]*)", block.body):
                for node, text in self.modelled[own]:
                    if re.search(rf"\.{name}\b", text):
                        self.cites[node] |= self.types_in(type_of, source) - {own}
        else:
            self.cites[own] |= self.types_in(block.body, source) - {own}
            self.parts[own] += [((label,), self.types_in(text, source) - {own}) for label, text in fields_of(block.body)]
            for name, ghost in re.findall(r"\bghost (\w+): \{([^}]*)\}", block.body):
                self.add_ghost(source, own, "", name, ghost, self.cited_in(ghost, source.ghosts, source) - {own}, self.inner)

    def needed(self, begin, ways, without=()):
        """As `reached`, but a record, a struct or an enum leads to those of its fields and variants alone that something reached names, and a type to
        what its impls say of the traits that are reached."""
        ways = [{it: set(way.get(it, ())) for it in {*way, *self.parts}} for way in ways]
        for node, fields in self.parts.items():
            for way in ways:
                way[node] = way[node].difference(*(some for _, some in fields))
        words, found = set(), dict.fromkeys(begin)
        while True:
            found = self.reached(found, ways, without)
            words.update(*(self.words[it] for it in found))
            named = [(node, some) for node in found for labels, some in self.parts.get(node, ()) if all(it in words or it in found for it in labels)]
            more = {it: node for node, some in named for it in some if it not in found and it not in without}
            if not more:
                return found
            found |= more

    def reached(self, begin, ways, without=()):
        """All that these lead to, each with what led there; what is left out leads nowhere."""
        found, waiting = dict(begin) if isinstance(begin, dict) else dict.fromkeys(begin), list(begin)
        for node in waiting:
            for it in sorted({it for way in ways for it in way.get(node, ())}, key=repr):
                if it not in found and it not in without:
                    found[it] = node
                    waiting.append(it)
        return found
