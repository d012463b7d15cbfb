"""The definitions of crates/*/specs, and what a definition or a contract names.

A name is looked up as the prover does it: in its own file, and then by the file's `use` lines. Names that are bound locally
(by an equation's left side, a `λ`, a binder, or a field of a record) name no definition. Nothing here knows the language's
types: it reads heads, equations and `use` lines, and relies on the layout that the crates have.
"""

import os
import re
from collections import namedtuple

CRATES = os.path.join(os.path.dirname(os.path.abspath(__file__)), "..", "..", "crates")

# A definition's file is named as `model/specs/World.antt`, and its line is that of its head. Its lines, with the comments
# above it and in it, are all that is to be read.
class Definition(namedtuple("Definition", "file name line lines")):
    def __eq__(self, other):
        return isinstance(other, Definition) and self[:2] == other[:2]

    def __hash__(self):
        return hash(self[:2])


# A type of the program, a word of std or of another crate of the kit, or what the toolchain makes of an item of a crate.
Type = namedtuple("Type", "crate name")
Word = namedtuple("Word", "module name")
Made = namedtuple("Made", "crate path")

USE = re.compile(r"^(?:pub |ghost )*use ([\w.]+?)(?:\.\{([^}]*)\}| as (\w+))?;?$", re.M)
HEAD = re.compile(r"^( *)(?:(?:abbrev|unfoldable) )?(?:pub )?(?:(record|data) )?([^\s:(){},;.]+)(?= (?:[({][^:]+:|:))")
BINDER = re.compile(r"[({]([^(){}:=]+) : ")
LAMBDA = re.compile(r"λ ([^.(){}]+)\.")
FIELD = re.compile(r"(?:^|[{;])\s*(\w+) = ", re.M)
LOCAL = re.compile(r"\blet (\w+)")
MEMBER = re.compile(r"^ +(?:pub )?([^\s:(){}]+) : ")
TOKEN = re.compile(r"\[\]|[^\s(){}\[\];,]+")
CLAUSE = re.compile(r"(?:requires|ensures) ?(\w*) \{")


def read(*path):
    with open(os.path.join(CRATES, *path), encoding="utf-8") as file:
        return file.read()


def without_comment(line):
    return re.sub(r"(?:^|\s)--.*", "", line)


class File:
    """The definitions of a file, its imports, and whose each constructor is."""

    def __init__(self, file, text):
        self.file = file
        self.definitions, self.owners, self.imports, self.modules, self.open = {}, {}, {}, {}, []
        self.read_uses(text)
        self.read_definitions(text.split("\n"))

    def read_uses(self, text):
        for path, names, alias in USE.findall(text):
            if names:
                for name in names.split(","):
                    source, _, local = name.strip().partition(" as ")
                    self.imports[local or source] = (path, source)
            else:
                self.modules[alias or path.rpartition(".")[2]] = path

    def read_definitions(self, lines):
        above, current, depth, kind = [], None, 0, None
        for number, line in enumerate(lines, 1):
            head = None if line.startswith(("use ", "pub use ", "pub mod ", "module ", "unfolding ")) else HEAD.match(line)
            if head and (current is None or len(head[1]) <= depth) and head[3] not in ("pub", "λ"):
                current, depth, kind = head[3], len(head[1]), head[2]
                self.definitions[current] = Definition(self.file, current, number, above + [line])
                above = []
            elif line.startswith("module "):
                above, current = [], None
            elif not line.strip() or line.startswith(("use ", "pub ", "unfolding ")):
                above = []
            elif line.lstrip().startswith("--"):
                above.append(line)
            elif current and (line.startswith(" " * (depth + 1)) or line[depth:].startswith(current + " ")):
                self.definitions[current].lines.extend(above + [line])
                above = []
                member = MEMBER.match(line) if kind == "data" else None
                if member:
                    self.owners[member[1]] = current


class Specs:
    """All definitions of the crates."""

    def __init__(self):
        self.files = {}
        self.types, self.valued = {}, set()
        for crate in sorted(os.listdir(CRATES)):
            for folder in ("specs", "src"):
                for root, _, names in os.walk(os.path.join(CRATES, crate, folder)):
                    for name in sorted(names):
                        path = os.path.relpath(os.path.join(root, name), CRATES)
                        if name.endswith(".antt") and name != "Lib.antt":
                            self.files[path] = File(path, read(path))
                        elif name.endswith(".rt"):
                            self.read_types(crate, path, read(path))

    def read_types(self, crate, path, text):
        """The structs, enums and type names of a file of code, with their text."""
        for item in re.finditer(r"^pub(?:\([a-z]+\))? (struct|enum|type) (\w+)[^;{]*(?:\{.*?^\}|\{\}|;)", text, re.M | re.S):
            line = text.count("\n", 0, item.start()) + 1
            self.types.setdefault(Type(crate, item[2]), (path, line, item[0]))
        self.valued.update(Type(crate, name) for name in re.findall(r"^impl Model for (\w+)", text, re.M))

    def definitions(self):
        return [definition for file in self.files.values() for definition in file.definitions.values()]

    def found(self, file, token):
        """What a token of a file names, or `None`."""
        first, _, rest = token.partition(".")
        for name in (first, f"◌{first}◌", f"◌{first}", f"{first}◌then◌else◌"):
            if name in file.definitions:
                return file.definitions[name]
            if name in file.owners:
                return file.definitions[file.owners[name]]
            if name in file.imports:
                return self.imported(*file.imports[name])
        if first in file.modules and rest:
            return self.imported(file.modules[first], rest.partition(".")[0])
        return None

    def imported(self, path, name):
        """What the name is in the module with this path."""
        parts = path.split(".")
        if parts[0] != "Rattle" or parts[1] == "std" or not os.path.isdir(os.path.join(CRATES, parts[1])):
            return Word(path, name)
        if parts[3] == "declared":
            return Type(parts[1], parts[-2] if parts[-1] == "TheVariants" else parts[-1])
        file = self.files.get(os.path.join(parts[1], "specs", *parts[3:]) + ".antt")
        if file is None:
            return Made(parts[1], ".".join(parts[3:] + [name]))
        return self.found(file, name)

    def named(self, file, text, bound=()):
        """What a text of a file names, where these names are bound."""
        bound = set(bound).union(*(names.split() for names in BINDER.findall(text) + LAMBDA.findall(text)))
        bound.update(FIELD.findall(text), LOCAL.findall(text))
        tokens = (token.strip(".") for token in TOKEN.findall(text))
        found = [self.found(file, token) for token in tokens if token.partition(".")[0] not in bound]
        return [one for one in found if one is not None]

    def names_of(self, definition):
        """What a definition names, in the order in which it does."""
        file = self.files[definition.file]
        lines = [without_comment(line) for line in definition.lines]
        lines = [line for line in lines if line.strip()]
        depth = len(lines[0]) - len(lines[0].lstrip())
        equation = re.compile(" " * depth + re.escape(definition.name) + " ")
        parts = []
        for line in lines:
            member = MEMBER.match(line) if re.search(r"\b(record|data) ", lines[0]) else None
            if not parts or equation.match(line) or member:
                parts.append("")
            parts[-1] += line + "\n"
        bound = {definition.name}
        if re.search(r"\b(record|data) ", lines[0]):
            bound.update(*(names.split() for names in BINDER.findall(parts[0])))
            bound.update(MEMBER.match(part)[1] for part in parts[1:])
        found = []
        for part in parts:
            if equation.match(part):
                left, _, part = part.partition(" =")
                found += self.named(file, part, bound | set(TOKEN.findall(left)))
            else:
                found += self.named(file, part, bound)
        return [one for one in found if one != definition]

    def names_of_type(self, kind):
        """The types of the program that a type names: of its own crate, or else of one that its file may use. A type that
        has a value of its own (`impl Model`) is known by that."""
        if kind in self.valued:
            return []
        text = re.sub(r"//.*", "", self.types[kind][2])
        others = re.findall(r"\b[A-Z]\w+", text)
        crates = [kind.crate, "schema", "model", "tree_changes"]
        found = (next((Type(crate, name) for crate in crates if Type(crate, name) in self.types), None) for name in others)
        return [other for other in found if other is not None and other != kind]

    def contract(self, path, type_name, function):
        """What each clause of a function of a type names, by the clause's name, and the line at which the function stands."""
        text = read(path)
        block = re.compile(rf"^impl(?:<[^{{]*>)? {type_name}(?:<[^{{]*>)? \{{$.*?^\}}", re.M | re.S)
        head = re.compile(rf"^    pub fn {function}\b.*?^    \{{$", re.M | re.S)
        found = [(impl.start() + fn.start(), fn[0]) for impl in block.finditer(text) for fn in head.finditer(impl[0])]
        if len(found) != 1:
            raise SystemExit(f"{path} has {len(found)} functions {type_name}::{function}")
        begun, contract = found[0]
        heads = list(CLAUSE.finditer(contract))
        bound = set(re.findall(r"\b(\w+): ", contract[: heads[0].start()])) | {"self", "result"}
        file = File(path, "\n".join(re.findall(r"^ghost use .*", text, re.M)))
        ends = [one.start() for one in heads[1:]] + [len(contract)]
        clauses = {one[1]: self.named(file, contract[one.end() : end], bound) for one, end in zip(heads, ends)}
        return clauses, text.count("\n", 0, begun) + 1

    def closure(self, roots, met):
        """Adds to what was met what these roots rest on, and gives what is new, in the order in which it is met."""
        new, left = [], list(reversed(roots))
        while left:
            one = left.pop()
            if one in met:
                continue
            met.add(one)
            new.append(one)
            if isinstance(one, Definition):
                left.extend(reversed(self.names_of(one)))
            elif isinstance(one, Type) and one in self.types:
                left.extend(reversed(self.names_of_type(one)))
        return new
