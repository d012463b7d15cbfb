"""The functions of a crate's sources: where each stands, and the path below the crate by which the prover names it.

Nothing here knows the language's types: it reads blocks, the headers of `mod`, `trait` and `impl`, and the heads of functions, and
relies on the layout that the crates have.
"""

import os
import re
from bisect import bisect_right
from collections import namedtuple

# A function: its path below the crate, the file as `src/a.rt`, its name, the offsets of its head and of its body, without the
# braces, in the file, its first and last line, the name of its cycle of calls, or "", and whether it is a method of a trait.
Function = namedtuple("Function", "path file name start body end first last cycle is_of_trait")

HIDDEN = re.compile(r"""//[^\n]*|/\*.*?\*/|b?r(#*)".*?"\1|b?"(?:\\.|[^"\\])*"|b?'(?:\\(?:x..|u\{\w*\}|.)|[^'\\\n])'""", re.S)
ITEM = re.compile(r"[{}]|\b(?:(mod|trait) (\w+)|(impl)\b|fn (\w+))")
TYPE = re.compile(r"^\s*(?:pub(?:\([\w: ]*\))? )?(?:struct|enum) (\w+)", re.M)
CLAUSE = re.compile(r"\b(?:requires|ensures|ghost)\b[^{}]*$")
CYCLE = re.compile(r"#\[cycle\((\w+)\)\][^{};]*$")
WORD = re.compile(r"[A-Za-z_]\w*")


def blanked(text):
    """The text with blanks for the comments, texts and characters in it, so that each offset stays."""
    return HIDDEN.sub(lambda it: re.sub(r"[^\n]", " ", it.group()), text)


def sources(folder):
    """The sources of a crate, each by its path in the crate's folder, as `src/a.rt`."""
    found = {}
    for at, folders, names in os.walk(os.path.join(folder, "src")):
        folders.sort()
        for name in sorted(names):
            if name.endswith(".rt"):
                path = os.path.join(at, name)
                with open(path, encoding="utf-8") as file:
                    found[os.path.relpath(path, folder)] = file.read()
    return found


def functions(folder):
    """All functions of the crate in this folder that have a body."""
    return functions_in(sources(folder))


def functions_in(texts):
    """All functions that have a body in a crate of these sources."""
    texts, homes = {path: blanked(text) for path, text in texts.items()}, {}
    for path, text in texts.items():
        for name in TYPE.findall(text):
            homes.setdefault(name, []).append(module_of(path))
    return [it for path, text in texts.items() for it in functions_of(path, text, homes)]


def functions_of(path, text, homes):
    """The functions of a file, whose text is blanked. `homes` has the modules of each type's name."""
    lines = [it.start() for it in re.finditer("\n", text)]
    line = lambda offset: bisect_right(lines, offset - 1) + 1
    blocks, opening, at = [], None, 0
    while True:
        item = ITEM.search(text, at)
        if not item:
            return
        at = item.end()
        if item.group() == "{":
            blocks.append(opening)
            opening = None
        elif item.group() == "}":
            blocks = blocks[:-1]
        elif item.group(4):
            body = body_at(text, at)
            if body:
                name = item.group(4)
                owner = [it for it in blocks if it]
                cycle = CYCLE.search(text, 0, item.start())
                full = "::".join([*path_of(module_of(path), owner, homes), name])
                lines_of = line(item.start()), line(body[1])
                yield Function(full, path, name, item.start(), *body, *lines_of, cycle.group(1) if cycle else "", any(map(is_of_trait, owner)))
                at = body[1] + 1
        elif item.group(3):
            end = text.index("{", at)
            opening = ("impl", text[at:end])
            at = end
        elif text[at:].lstrip()[:1] == "{" or item.group(1) == "trait":
            opening = (item.group(1), item.group(2))


def is_of_trait(block):
    """Whether what stands in this block is a trait's, or one type's part of a trait."""
    kind, head = block
    return kind == "trait" or kind == "impl" and " for " in split_head(head)[1]


def whole(text, function):
    """The text of a function in its file, with the comments and attributes above it and no line end after it."""
    lines = text[: text.index("\n", function.end)].split("\n")
    first = text.count("\n", 0, function.start)
    while first and not is_between(lines[first - 1]):
        first -= 1
    return "\n".join(lines[first:])


def is_between(line):
    """Whether no function's comment or attribute is in this line: it is blank, or opens or closes a block."""
    line = line.strip()
    return not line or not line.startswith(("//", "#")) and line.endswith(("{", "}", ";"))


def body_at(text, at):
    """Where the body of the function begins and ends whose head goes on at this offset, or `None` if it has no body."""
    depth, last = 0, at
    for sign in re.finditer(r"[()\[\]{};]", text[at:]):
        place = at + sign.start()
        if place < last:
            continue
        if sign.group() in "([":
            depth += 1
        elif sign.group() in ")]":
            depth -= 1
        elif depth == 0 and sign.group() == ";":
            return None
        elif depth == 0 and sign.group() == "{":
            end = end_of_block(text, place)
            if not CLAUSE.search(text, last, place):
                return place + 1, end
            last = end + 1
    return None


def end_of_block(text, at):
    """The offset of the brace that closes the one at this offset."""
    depth = 0
    for brace in re.finditer(r"[{}]", text[at:]):
        depth += 1 if brace.group() == "{" else -1
        if depth == 0:
            return at + brace.start()
    return len(text)


def module_of(path):
    """The module of a file, as a list of names: of `src/a/b.rt` it is `a`, `b`."""
    names = path[len("src/") : -len(".rt")].split("/")
    return names[:-1] if names[-1] in ("lib", "main", "mod") else names


def path_of(module, blocks, homes):
    """What stands in a function's path before its name. A method stands in its type's module, one of a trait in that of its `impl`."""
    for kind, head in blocks:
        if kind == "mod":
            module = [*module, head]
        elif kind == "trait":
            return [*module, head]
        else:
            parameters, head = split_head(head)
            trait, _, of = head.partition(" for ")
            if of:
                return [*module, words_of(of, parameters) + words_of(trait, parameters)]
            name = WORD.search(of or trait)
            home = homes.get(name.group(), [module]) if name else [module]
            return [*(module if module in home else home[0]), name.group() if name else "?"]
    return module


def split_head(head):
    """The names of an `impl`'s own type parameters, and its head without these and without what stands in `where`."""
    head, depth, parameters = head.strip(), 0, ""
    if head.startswith("<"):
        for offset, sign in enumerate(head):
            depth += {"<": 1, ">": -1}.get(sign, 0) if head[offset - 1 : offset + 1] != "->" else 0
            if depth == 0:
                parameters, head = head[1:offset], head[offset + 1 :]
                break
    return re.findall(r"(?:^|,)\s*(?:const )?(\w+)", parameters), re.split(r"\bwhere\b|\n\s*ghost\b", head)[0]


def words_of(text, parameters):
    """The name of a type or a trait in a path of the prover: its words, each with a capital and without the type parameters of the
    `impl`, as `FromU64` of `From<u64>`, and `Tuple2Eprint` of a pair's."""
    text = text.strip()
    if text.startswith("("):
        text = "Tuple%d" % len(text.strip("(),").split(","))
    words = re.findall(r"\w+", re.sub(r"'\w+|\b\w+::", "", text.replace("&mut ", "RefMut ").replace("&", "Ref ")))
    return "".join(it[:1].upper() + it[1:] for it in words if it not in ("dyn", "mut", "const", *parameters))


def function_at(found, path, offset):
    """The function in whose body this offset of a file lies, or `None`."""
    return next((it for it in found if it.file == path and it.body <= offset <= it.end), None)
