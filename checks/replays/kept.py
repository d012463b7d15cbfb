"""Replays what was kept of recordings, and compares the scripts with the ones that are written down, with the answers themselves, and with
what a person sees."""

import gzip
import io
import os
import re
from typing import NamedTuple

from model.fields import ROOT as ROOT_TREE
from model.programs import Search, find_in
from model.scripts import Play, told_by, world_of
from model.texts import flat_text, is_text, label_of, value_of
from model.views import bounding_box
from model.worlds import node_named
from recording.bus import Replayed
from recording.looks import kept_look
from recording.pages import Page
from recording.script import Notes, Script
from recording.sources import ROOT, Kept
from recording.turns import Turns
from runs.program import HERE

DATA = os.path.join(HERE, "recorded")
FIELDS_OF_TEXT = ("textbox", "searchbox")
# What an application has as a place of something that isn't on the screen.
NOWHERE = -(2**30)


def names():
    """The recordings that were kept."""
    return sorted(name[: -len(".kept.gz")] for name in os.listdir(DATA) if name.endswith(".kept.gz"))


def read(name):
    return Kept.read(os.path.join(DATA, f"{name}.kept.gz"))


def written(name):
    """The script that is written down."""
    path = os.path.join(DATA, f"{name}.script.gz")
    if not os.path.exists(path):
        return b""
    with gzip.open(path) as file:
        return file.read()


def replay(kept):
    """The script of a recording, and the notes on it, one for each line."""
    out, said = io.BytesIO(), io.StringIO()
    notes = Notes("replay", said)
    script = Script(out, notes, has_titles=True)
    turns = None if "page" in kept.about else Turns(Replayed(kept), script, notes)
    for step, given in kept.go():
        if turns:
            if getattr(turns, step)(given) is False and step == "begin":
                break
        else:
            tree = Page(kept_look(kept), notes).tree()
            if tree:
                script.update(tree, given[0] if given else None, "Chromium")
    return out.getvalue(), said.getvalue()


def refusals(script):
    """Why the model refuses updates of a script, or a line of it."""
    told, bad = told_by(script)
    return [line for line in told if line.startswith("refused")] + ([f"line {bad} is bad"] if bad else [])


def difference(script, expected):
    """Where two scripts differ first."""
    for count, (line, other) in enumerate(zip(script.split(b"\n"), expected.split(b"\n")), 1):
        if line != other:
            at = next((at for at, (one, two) in enumerate(zip(line, other)) if one != two), min(len(line), len(other)))
            part = slice(max(0, at - 40), at + 40)
            return f"line {count}: {line[part].decode(errors='replace')!r} and not {other[part].decode(errors='replace')!r}"
    return None if len(script) == len(expected) else f"it has {len(script)} bytes and not {len(expected)}"


# ---- the first update and the answers


def first_world(script):
    """The world after the first update."""
    play, lines = Play(), script.split(b"\n")
    for line in lines[: lines.index(b"end") + 1]:
        play.line(line)
    return play.world


def is_said(world, id, text):
    """Whether this is the label of a node, its value, or a part of its text."""
    said = [label_of(world, id) or "", value_of(world, id) or ""]
    said += ["".join(flat_text(world, id).characters)] if is_text(world, id) else []
    return any(text.strip() in one for one in said)


def faults_of_box(world, id, box):
    """Whether a node is where it was answered to be, in pixels."""
    left, top, width, height = box
    expected = tuple(round(64 * edge) for edge in (left, top, left + width, top + height))
    found = bounding_box(world, id)
    if found is None or any(abs(one - two) > 1 for one, two in zip(found, expected)):
        yield f"node {id[1]} is at {found}, and was answered to be at {expected}"


def faults_of_application(kept, world):
    """What of the answers isn't in the first update: by a plain walk through the answers, each accessible has its node, with its name and
    its place, or, if its path has no number, some node has its name. How many were looked at comes first."""
    answers, todo, seen, faults = kept.steps[0]["answers"], [ROOT], {ROOT}, []
    said = {text for id in world.nodes for text in (label_of(world, id), value_of(world, id)) if text}
    while todo:
        path = todo.pop()
        of = answers.get(path, {})
        properties = next((of[key][0] for key in of if key.startswith("Properties.GetAll['org.a11y.atspi.Accessible")), {})
        name, end = properties.get("Name", ""), path.rpartition("/")[2]
        id = node_named(world, int(end), ROOT_TREE) if end.isdigit() else None
        is_class = re.fullmatch("(Gtk|Adw)[A-Z][A-Za-z]+", name)
        if id:
            extents = of.get("Component.GetExtents[0]")
            if name and not is_class and not is_said(world, id, name):
                faults.append(f"node {id[1]} doesn't say {name!r}")
            if extents and min(extents[0][:2]) > NOWHERE and min(extents[0][2:]) > 0 and path != ROOT:
                faults += faults_of_box(world, id, extents[0])
        elif end.isdigit():
            faults.append(f"{path} has no node")
        elif name and not is_class and not said & {name, name.strip(), name[: len(name) // 2]}:
            # (GTK 4 has the name of a label twice)
            faults.append(f"no node says {name!r}")
        new = [child for name, child in (of.get("Accessible.GetChildren") or [[]])[0] if child not in seen and child in answers]
        new = [child for child in new if answers[child].get("Accessible.GetRole")]
        seen.update(new)
        todo += new
    return len(seen), faults


def below(nodes, node):
    """What is below a node of a page."""
    for child in node["children"]:
        if child in nodes:
            yield child
            yield from below(nodes, nodes[child])


def faults_of_page(kept, world):
    """The same of a page: each node that isn't ignored, with its name and the box of its element."""
    step = kept.steps[0]["answers"]
    scroll, count, faults = step["page"]["shape"][:2], 0, []
    # (what is in a field is its text)
    parts = {child for node in step["nodes"].values() if node["role"] in FIELDS_OF_TEXT for child in below(step["nodes"], node)}
    for key, node in step["nodes"].items():
        if node.get("ignored") or node["role"] == "InlineTextBox" or int(key) < 0 or key in parts:
            continue
        count += 1
        id = node_named(world, int(key), ROOT_TREE)
        element = step["elements"].get(str(node.get("of")), {})
        if not id:
            faults.append(f"node {key} isn't there")
            continue
        if node.get("name") and not is_said(world, id, node["name"]):
            faults.append(f"node {key} doesn't say {node['name']!r}")
        if "box" in element and node["role"] != "RootWebArea":
            left, top, width, height = element["box"]
            faults += faults_of_box(world, id, (left - scroll[0], top - scroll[1], width, height))
    return count, faults


# ---- what a person sees


class Control(NamedTuple):
    """A control that a person sees on a picture: its role and label, and a point in it, in pixels of the picture."""

    role: str
    label: str
    x: int
    y: int

    def words(self):
        return [self.role, self.label] if self.label else [self.role]

    def fault(self, printed):
        """What is wrong with what `find` prints: nothing if one that is found is where it is seen, with nothing else on top of it."""
        if not printed.startswith("0:"):
            return printed.strip()
        faults = []
        for found in re.split(r"\n(?=\d+:)", printed):
            bounds, middle = (re.search(rf"^  {name} (.*)$", found, re.M) for name in ("bounds", "middle"))
            box = [int(edge) / 64 for edge in bounds[1].split(",")] if bounds[1] != "none" else None
            if not box or not (box[0] <= self.x <= box[2] and box[1] <= self.y <= box[3]):
                faults.append(f"it is at {box}, and is seen at {self.x},{self.y}")
            elif not middle or not middle[1].startswith(("itself", "within")):
                faults.append(f"its middle is {middle and middle[1]}")
            else:
                return None
        return "; ".join(faults)


def seen_controls(name):
    """What a person sees: lines `ROLE "LABEL" X,Y`. A line `corner X,Y` says where a window is of which the toolkit doesn't know that."""
    path = os.path.join(DATA, f"{name}.seen")
    if not os.path.exists(path):
        return []
    with open(path, encoding="utf-8") as file:
        text = file.read()
    corner = re.search(r"^corner (\d+),(\d+)$", text, re.M)
    left, top = map(int, corner.groups()) if corner else (0, 0)
    lines = re.findall(r'^(\w+) "(.*)" (\d+),(\d+)$', text, re.M)
    return [Control(role, label, int(x) - left, int(y) - top) for role, label, x, y in lines]


def faults_of_seen(name, script):
    """Which of these controls the model's `find` doesn't find."""
    world = world_of(script)
    for control in seen_controls(name):
        lines, hints, _ = find_in(world, Search(control.words()))
        fault = control.fault("\n".join(lines + hints))
        if fault:
            yield f"{' '.join(control.words())}: {fault}"


def check_one(name):
    """The checks of a recording: what each is about, and what is wrong."""
    kept = read(name)
    script, notes = replay(kept)
    world = first_world(script)
    count, faults = (faults_of_page if "page" in kept.about else faults_of_application)(kept, world)
    yield "the script", [it for it in [difference(script, written(name))] if it]
    yield "no update is refused", refusals(script)
    yield "no answer is of a wrong type", [line for line in notes.splitlines() if "wrong type" in line]
    yield f"{count} answers are in the first update", faults if count > 20 else [f"only {count} were looked at"]
    controls = seen_controls(name)
    faults = list(faults_of_seen(name, script))
    yield f"{len(controls)} controls are found where they are seen", faults or ([] if len(controls) >= 10 else ["too few"])


def nodes_of(name):
    """How many nodes the first update has."""
    script = written(name)
    return script[: script.index(b"\nend\n")].count(b"\nnode ")
