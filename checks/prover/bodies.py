"""Wrong bodies of functions: how they are read and made, which are tried together, and what the prover said of each."""

import os
import re
from collections import namedtuple

from prover import functions as sources

# A wrong body: its name, the paths of the functions that have to refuse it, the clause that is meant to, whether it is tried on demand
# alone, what it has to come to (`refused`), its pairs of texts as (file, old, new), and why it can't be read, or None.
Body = namedtuple("Body", "name functions clause demand wanted pairs fault")

# Where a wrong body stands in its crate: the lines that it changes as (file, line), the functions in whose bodies these are, whether
# it changes anything outside of bodies and comments, as a constant or a type, why it can't be made, or None, and the function of
# which a copy can have it, or None.
Place = namedtuple("Place", "lines inside is_outside fault function")

# What a try of a wrong body came to, and what is told of it. A body has passed where it is refused.
REFUSED, PROVED, UNREAD, CALLS, NAMES, UNSURE = "refused", "proved", "unread", "calls", "names", "unsure"
NO_PLACE, NO_FUNCTION = "no place", "no function"
# What is known of a wrong body whatever is tried with it. Where one doesn't compile, nothing is known of the others.
SETTLED = (REFUSED, PROVED, UNREAD, NAMES, NO_FUNCTION)
TELL = {
    REFUSED: "refused",
    PROVED: "FAILED: NOT REFUSED: the function is still proved",
    UNREAD: "FAILED: it doesn't compile, or the prover can't read it",
    CALLS: "FAILED: only a function that it calls isn't proved",
    NAMES: "FAILED: a proof file names what the edit took away, so that nothing is shown of the contract: change a value and keep the names",
    NO_PLACE: "FAILED: it can't be made",
    NO_FUNCTION: "FAILED: the prover knows no such function",
    UNSURE: "FAILED: nothing is known of it",
}

# What the prover says of a place, and of a function. A proof file that names what an edit took away isn't read, what cites it isn't
# admitted, and an answer to what is no longer asked isn't used: the goals that then are left show nothing.
SAID = re.compile(r"^(?:note: )?(?:\./)?((?:src|specs|proofs)/\S+?):(\d+):(\d+): (.*)$")
# (the prover breaks a long message after the name of a record or module, and the names that it has in place of the one, before
# `has no field`)
TAKEN_AWAY = re.compile(r"has no field|is not in scope|has no `|was not admitted|(?:record|module) `[^`]*`(?: \(nearest: [^)]*\))?$")
UNUSED = re.compile(r"^note: (?:\./)?(proofs/\S+): `[^`]*` is no name that rattle asks for")
NOT_READ = re.compile(r"is not in scope|has no field|is no name|operand is missing|expected the end|cannot continue")
OWN = re.compile(r"did not prove `")
# (where a hole stands for the proofs of the functions that it calls, a function is proved but for these)
IS_PROVED = re.compile(r"proved|no holes|depends on a hole in `[^`]*\.Proof\.\w+_spec`")
UNKNOWN = re.compile(r"^rattle: error: `\w+` has no function `([^`]*)`", re.M)


def read(path, is_own=False):
    """Reads a wrong body from its file. One that tries the runner itself may come to something else than a refusal, and says what."""
    name = os.path.basename(path)[: -len(".edit")]
    said, pairs, file, old = {"function": [], "clause": [], "on": []}, [], None, None
    if is_own:
        said["comes to"] = []
    with open(path, encoding="utf-8") as lines:
        for number, line in enumerate(lines.read().split("\n"), 1):
            key, colon, text = line.partition(":")
            text = text[1:] if text.startswith(" ") else text
            if not line.strip() or line.startswith("#"):
                continue
            if colon and key in said:
                said[key].append(text.strip())
            elif colon and key == "file":
                file = text.strip()
            elif colon and key == "old" and old is None:
                old = text
            elif colon and key == "new" and file and old:
                pairs.append((file, old, text))
                old = None
            else:
                return Body(name, [], "", False, REFUSED, [], "line %d can't be read: %s" % (number, line[:80]))
    fault = None
    if not pairs or old is not None:
        fault = "it has no pair of lines `old:` and `new:`, or one without the other"
    elif said["on"] not in ([], ["demand"]):
        fault = "a line `on:` says `demand`, and nothing else"
    elif not all(file.startswith("src/") and os.path.normpath(file) == file for file, _, _ in pairs):
        fault = "a line `file:` names no file below src/"
    wanted = (said.get("comes to") or [REFUSED])[0]
    return Body(name, said["function"], " ".join(said["clause"]), bool(said["on"]), wanted, pairs, fault)


def made(body, texts):
    """The texts of the files that the wrong body changes, in place of these, or why it can't be made."""
    changed = {}
    for file, old, new in body.pairs:
        if file not in texts:
            return None, "there is no file %s" % file
        text = changed.get(file, texts[file])
        if text.count(old) != 1:
            return None, "the old text stands %d times in %s, and not once: %s" % (text.count(old), file, old.strip()[:80])
        changed[file] = text.replace(old, new)
    if all(changed[file] == texts[file] for file in changed):
        return None, "it changes nothing"
    return changed, None


def place_of(body, texts, found):
    """Where the wrong body stands in the crate of these sources and functions."""
    if body.fault:
        return Place(set(), [], False, body.fault, None)
    changed, fault = made(body, texts)
    lines, inside, is_outside = set(), [], False
    for file, old, new in body.pairs:
        start = texts.get(file, "").find(old)
        if start >= 0:
            at = start + len(os.path.commonprefix([old, new]))
            function = sources.function_at(found, file, at)
            lines.add((file, texts[file].count("\n", 0, at) + 1))
            inside += [function] if function else []
            is_outside |= not function and sources.blanked(texts[file])[start : start + len(old)].strip() != ""
    if not fault and not body.functions:
        held = sorted({it.path for it in inside})
        fault = "it has no line `function:`" + (", and its old text stands in %s" % " and ".join(held) if held else "")
    can_copy = not fault and not is_outside and body.functions == sorted({it.path for it in inside}) and is_apart(inside[0])
    return Place(lines, inside, is_outside, fault, inside[0] if can_copy else None)


def is_within(body, place):
    """Whether the wrong body changes nothing but functions that have to refuse it."""
    return not place.is_outside and {it.path for it in place.inside} <= {*body.functions}


def is_apart(function):
    """Whether another function of the same text may stand beside this one: not for a method of a trait, nor in a cycle of calls."""
    return not function.is_of_trait and not function.cycle


class Copy(namedtuple("Copy", "body function name before after")):
    """A copy of a function, under a name of its own, that has a wrong body; and what stands in the file before it and then."""

    def path(self):
        return self.function.path[: -len(self.function.name)] + self.name

    def folders(self):
        """The folders of the function's proof and of the copy's."""
        return tuple("proofs/" + it.replace("::", "/") for it in (self.function.path, self.path()))

    def proof(self, text):
        """A proof file of the function, as the copy has it: it names its own goals."""
        one, other = ("proofs." + it.replace("::", ".") + "." for it in (self.function.path, self.path()))
        return text.replace(one, other)


def copied(body, function, texts, number):
    """A copy of the function with the wrong body, or None where it can't be made."""
    before = sources.whole(texts[function.file], function)
    name = "%s_%d" % (function.name, number)
    after, count = re.subn(r"\bfn %s\b" % function.name, "fn " + name, before, count=1)
    for file, old, new in body.pairs:
        if file != function.file or after.count(old) != 1:
            return None
        after = after.replace(old, new)
    is_made = count and texts[function.file].count(before) == 1 and not re.search(r"\b%s\b" % name, texts[function.file])
    return Copy(body, function, name, before, after) if is_made else None


# What stands in place of the body and the proof of a function that no wrong body is of: a body of every type, and a hole. Nothing
# but its contract is known of a function where another one calls it.
NO_BODY = " loop {} "
NO_PROOF = """use Rattle.%(crate)s.proofs.%(path)s.Statement.{statement}

pub %(name)s_spec : {M : Type 1} → statement M
%(name)s_spec = ?
"""


class Round:
    """Wrong bodies that are tried in one check. Each is that of a copy of its function, which stands beside it under another name, so that
    neither the function nor its callers are another's. A method of a trait can't have a copy, nor a function in a cycle of calls: of
    these no two wrong bodies are of one function, of one cycle or on one line. What changes anything outside of bodies, as a constant
    or a type, is tried by itself. In a bare round all other functions have lost their bodies, so that none of these is proved again."""

    def __init__(self, texts, is_bare):
        self.texts, self.is_bare, self.bodies, self.taken, self.is_alone = texts, is_bare, [], set(), False
        self.in_place, self.copies = {}, {}

    def add(self, body, place, is_alone=False):
        """Takes the wrong body up, if it can be tried with those that are there."""
        is_alone = is_alone or place.is_outside
        if self.bodies and (is_alone or self.is_alone):
            return False
        copy = place.function and not is_alone and copied(body, place.function, self.texts, len(self.copies) + 1)
        if not (self.add_copy(copy) if copy else self.add_in_place(body, place)):
            return False
        self.bodies.append(body)
        self.is_alone = is_alone
        return True

    def add_copy(self, copy):
        if copy.function.path in self.taken:
            return False
        self.copies[copy.body.name] = copy
        self.taken.add("copy " + copy.function.path)
        return True

    def add_in_place(self, body, place):
        changed, fault = made(body, {**self.texts, **self.in_place})
        taken = {*place.lines, *body.functions, *(it.path for it in place.inside), *("cycle " + it.cycle for it in place.inside if it.cycle)}
        if fault or taken & self.taken or {"copy " + it.path for it in place.inside} & self.taken:
            return False
        self.in_place.update(changed)
        self.taken |= taken
        return True

    def changed(self):
        """The texts of the files that have wrong bodies."""
        found = {**self.texts, **self.in_place}
        for it in self.copies.values():
            found[it.function.file] = found[it.function.file].replace(it.before, it.before + "\n\n" + it.after)
        for it in reversed(self.bare(found)):
            text = found[it.file]
            # (as many lines as there were, so that what the check says of a line is said of that line)
            found[it.file] = text[: it.body] + NO_BODY + "\n" * text.count("\n", it.body, it.end) + text[it.end :]
        return {path: text for path, text in found.items() if text != self.texts[path]}

    def bare(self, texts):
        """The functions of these texts, in order, that lose their bodies. The functions of a cycle of calls keep theirs."""
        kept = {path for body in self.bodies for path in self.functions_of(body)}
        return [it for it in sources.functions_in(texts) if it.path not in kept and not it.cycle] if self.is_bare else []

    def proofs(self, crate):
        """The proofs of the functions that have lost their bodies, by their folders."""
        found = self.bare({**self.texts, **self.changed()})
        named = {it.path: {"crate": crate, "path": it.path.replace("::", "."), "name": it.name} for it in found}
        return {"proofs/" + path.replace("::", "/"): NO_PROOF % names for path, names in named.items()}

    def functions_of(self, body):
        """The paths of the functions that have to refuse this wrong body."""
        return [self.copies[body.name].path()] if body.name in self.copies else body.functions

    def judged(self, crate, ran, places):
        """What the check says of each wrong body, by name."""
        found, nowhere = sources.functions_in({**self.texts, **self.changed()}), Place(set(), [], False, None, None)
        return {
            it.name: judged(crate, it._replace(functions=self.functions_of(it)), nowhere if it.name in self.copies else places[it.name], ran, found)
            for it in self.bodies
        }


def judged(crate, body, place, ran, found):
    """What the check says of a wrong body that was made in it: a word, and a line that tells why."""
    spans = [it for it in found if it.path in body.functions]
    folders = ["proofs/%s/" % it.replace("::", "/") for it in body.functions]
    touched = {*place.lines}

    def is_own(file, line):
        # (what changes a constant or a type is tried by itself, so that all that is said is said of it)
        return place.is_outside or file.startswith(tuple(folders)) or any(it.file == file and it.first <= line <= it.last for it in spans) or (file, line) in touched

    said = [(it.group(0), it.group(1), it.group(4)) for it in map(SAID.match, ran.said.splitlines()) if it and is_own(it.group(1), int(it.group(2)))]
    refusal = next((line for line, file, text in said if not_compiled(text) or file.startswith("src/") and is_unread(text)), None)
    if refusal:
        return UNREAD, refusal
    lost = [it for it in UNKNOWN.findall(ran.said) if it in body.functions]
    if lost:
        return NO_FUNCTION, lost[0]
    states = states_of(crate, ran.said, body.functions)
    if not states:
        return UNSURE, first_lines(ran)
    if all(IS_PROVED.match(text) for _, text in states):
        return PROVED, "%s: %s" % states[0]
    name, state = next(it for it in states if not IS_PROVED.match(it[1]))
    if any("could not tell" in text for _, text in states):
        return UNSURE, "%s: %s" % (name, state)
    told = [(line, file) for line, file, text in said if text.startswith(("it is not proved", "error: "))]
    taken = [line for line, file in told if file.startswith("proofs/") and TAKEN_AWAY.search(line)]
    taken += [it.group(0) for it in map(UNUSED.match, ran.said.splitlines()) if it and it.group(1).startswith(tuple(folders))]
    if taken:
        return NAMES, "%s: %s" % (name, taken[0])
    if told or any(OWN.search(text) for _, text in states):
        return REFUSED, "%s: %s" % (name, told[0][0] if told else state)
    return (CALLS if "it calls" in state else UNSURE), "%s: %s" % (name, state)


def states_of(crate, said, functions):
    """What the check says of these functions and the closures in them, as pairs of a name and a text."""
    closures = [re.sub(r"(^|::)((?:[A-Z]\w*::)?\w+)$", r"\1fn::\2::", it) for it in functions]
    states = re.findall(r"^fn %s::(\S+): (.*)$" % crate, said, re.M)
    return [(name, text) for name, text in states if name in functions or name.startswith(tuple(closures))]


def not_compiled(text):
    """Whether this is an error of the compiler's, which comes before any proof."""
    return re.match(r"error\[[\w-]+\]", text) is not None


def is_unread(text):
    """Whether the prover could not read an edited text, where an edit that makes a statement false reads well."""
    it = re.match(r"error: (?:(`[^`]*`): )?(.*)", text)
    return bool(it) and (not it.group(1) or bool(NOT_READ.search(re.sub(r"`[^`]*`", "", it.group(2)))))


def first_lines(ran):
    """The first lines of what a check said, in one."""
    lines = [it for it in ran.said.splitlines() if it.strip()][:4]
    return "the check ended with status %d: %s" % (ran.status, " | ".join(lines)[:500])
