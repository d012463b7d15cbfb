"""How the fields are kept, seen by contracts, and compared, in crates/schema."""

import re

from .table import TOP, by, fields, in_group, replaced, snake

SCHEMA = TOP / "crates" / "schema"
# What a plain field holds before it is set, which means nothing.
UNSET = {"NodeId": "NodeId(0)", "TreeId": "TreeId(Uuid::nil())", "bool": "false", "Translation": "Translation { x: 0, y: 0 }"}
UNSET |= {"TextSelection": "NO_SELECTION", "Rect": "NO_RECTANGLE", "Color": "NO_COLOR", "TextDecoration": "NO_DECORATION"}
UNSET |= dict.fromkeys(("usize", "i64", "u32", "u16"), "0")
UNSET |= {"Toggled": "Toggled::False", "Orientation": "Orientation::Horizontal", "SortDirection": "SortDirection::Ascending"}
UNSET |= {"AriaCurrent": "AriaCurrent::False", "HasPopup": "HasPopup::Menu", "Live": "Live::Off", "TextAlign": "TextAlign::Left"}
UNSET |= {"TextDirection": "TextDirection::LeftToRight", "VerticalOffset": "VerticalOffset::Subscript"}
# The plain fields of a node that no row has, by the row after which they are kept.
BESIDE = {"font_size": {"role": ("Role", None)}, "font_weight": {name: ("u8", "0") for name in ("action_top", "child_action_top")}}
# The groups of which each field has a mark, with what is compared in them.
MARKED = {
    "Links": "links to other nodes and trees, and the selection",
    "Counts": "level, position and size of a set",
    "Values": "numeric values",
    "Scrolls": "scroll positions and translation",
    "Looks": "look of the text",
    "Choices": "choices",
}
# What is seen of the fields that are kept by hand.
SEEN = {name: f"a.rare.{name}" for name in ("labelled_by", "controls")}
SEEN |= {"children": "a.children.items", "label": "then_some a.marks.label (string_bytes a.label)", "value": "a.run.value"}
SEEN |= {"actions": "set_with a.plain.action_top a.actions", "child_actions": "set_with a.plain.child_action_top a.child_actions"}
SEEN |= {"character_lengths": "a.run.lists.lengths", "word_starts": "a.run.lists.starts"}
SEEN |= {"character_positions": "a.run.lists.positions", "character_widths": "a.run.lists.widths"}


def lines(indent, made):
    return "".join(f"{' ' * indent}{line}\n" for line in made)


# ---- marks and plain fields


def marks(current):
    last = len(by("mark"))
    current = replaced(current, "pub(crate) enum Mark {\n", "}\n", lines(4, (f"{field.variant}," for field in by("mark"))))
    current = replaced(current, "ensures small { result < ", " }", str(last))
    return replaced(current, "ghost invariant = { λ a. a.bits < 2 ^ ", " };", str(last))


def plain_fields():
    """The plain fields in their order, each with its type and what it holds at first."""
    for field in by("mark"):
        if field.is_plain:
            yield field.name, field.type, UNSET[field.type]
            for name, (type_, unset) in BESIDE.get(field.name, {}).items():
                yield name, type_, unset


def plain(current):
    kept = lines(4, (f"pub(crate) {name}: {type_}," for name, type_, _ in plain_fields()))
    new = lines(12, (f"{name}: {unset}," if unset else f"{name}," for name, _, unset in plain_fields()))
    current = replaced(current, "pub(crate) struct PlainFields {\n", "}\n", kept)
    return replaced(current, "        PlainFields {\n", "        }\n", new)


# ---- what contracts see


def seen(field):
    if field.type == "-":
        return SEEN[field.name]
    if field.type == "flag":
        return f"a.marks.{field.name}"
    if field.type == "text":
        return f"text_under {field.variant} a.rare.texts"
    return f"then_some a.marks.{field.name} a.plain.{field.name}"


def view(current):
    return replaced(current, "      role = a.plain.role;\n", "    } };\n", lines(6, (f"{field.name} = {seen(field)};" for field in fields())))


def mark_sets(current):
    names = [field.name for field in by("mark")]
    record = lines(2, (f"pub {name} : Bool" for name in names))
    current = replaced(current, "pub record MarkSet : Type 0 where\n", "\n-- the set that", record)
    current = replaced(current, "marks_by has = record {\n", "}\n", lines(2, (f"{name} = has {at};" for at, name in enumerate(names))))
    rows = [names[at : at + 5] for at in range(0, len(names), 5)]
    listed = lines(4, (" ".join(f"m.{name} ∷" for name in row) for row in rows))
    return replaced(current, "in_order m =\n", "    []\n", listed)


def same(name, what, made):
    """A record of what two nodes agree in."""
    return f"\n-- in {what}\npub record Same{name} (a b : NodeData) : Type 0 where\n{lines(2, made)}"


def alike(*groups):
    return [f"pub {field.name} : a.{field.name} ≡ b.{field.name}" for field in in_group(*groups)]


def parts(current):
    """The records of what two nodes agree in, after the marks of one."""
    is_set = {True: "d.{0}", False: "is_some d.{0}"}
    marks_of = lines(2, (f"{it.name} = {is_set[it.type == 'flag'].format(it.name)};" for it in by("mark")))
    current = replaced(current, "marks_of d = record {\n", "}\n", marks_of)
    first = [it for name in ("role", "label", "bounds", "children") for it in [f"pub {name} : a.{name} ≡ b.{name}"]]
    made = [
        same("Marks", "flags, and in what is set", [*alike("Marks"), "pub set : marks_of a ≡ marks_of b"]),
        same("First", "what most nodes have", first),
        *(same(group, what, alike(group)) for group, what in MARKED.items()),
        same("Rarer", "what fewer nodes have", [f"pub {group.lower()} : Same{group} a b" for group in MARKED]),
        same("Actions", "actions", alike("Actions")),
        same("Runs", "the value and the lists about its characters", alike("Runs")),
        same("Descriptions", "the descriptions and other words for the user", alike("Descriptions")),
        same("Names", "names and other texts", alike("Names")),
        same("RareParts", "what few nodes have", [*alike("RareParts"), *(f"pub {it.lower()} : Same{it} a b" for it in ("Descriptions", "Names"))]),
    ]
    head = current[: current.index("\n-- in flags, and in what is set\n")]
    return head + "".join(made)


# ---- equality


def comparing(field):
    """The function that compares two values of a field."""
    kinds = {"text": "text", "children": "ids", "labelled_by": "ids", "controls": "ids", "value": "text", "label": "text"}
    kinds |= dict.fromkeys(("character_lengths", "word_starts"), "shorts")
    kinds |= dict.fromkeys(("character_positions", "character_widths"), "ints")
    return "same_" + (kinds.get(field.name) or kinds.get(field.type) or snake(field.type))


def compared(field):
    """The call that compares a field, as the formatter lays it out after `&&`."""
    call = f"{comparing(field)}(self.{field.getter}(), other.{field.getter}())"
    if len(call) > 70:
        return f"{comparing(field)}(\n                self.{field.getter}(),\n                other.{field.getter}(),\n            )"
    return call


def all_of(calls):
    first, *others = calls
    return f"        {first}\n" + "".join(f"            && {call}\n" for call in others)


def bits(group):
    marks = [f"(1 << Mark::{field.variant} as u8)" for field in in_group(group)]
    first, *others = marks
    return f"const {group.upper()}: u64 = {first}" + "".join(f"\n    | {mark}" for mark in others) + ";\n"


def equality(current):
    for group in MARKED:
        current = replaced(current, f"const {group.upper()}: u64 = ", ";\n", bits(group).split(" = ", 1)[1].removesuffix(";\n"))
        begin = f"    fn same_each_of_{group.lower()}(&self, other: &Node) -> bool\n        ensures {{ IsTrue result ↔ Same{group} self.now other.now }}\n    {{\n"
        current = replaced(current, begin, "    }\n", all_of(map(compared, in_group(group))))
    for group, name in {"Runs": "each_of_runs", "Descriptions": "descriptions", "Names": "names"}.items():
        begin = f"    fn same_{name}(&self, other: &Node) -> bool\n        ensures {{ IsTrue result ↔ Same{group} self.now other.now }}\n    {{\n"
        current = replaced(current, begin, "    }\n", all_of(map(compared, in_group(group))))
    return current


# ---- proofs


def marks_kept(current):
    def kept(field):
        if field.type == "flag":
            return f"a.marks.{field.name}"
        of = "(string_bytes a.label)" if field.name == "label" else f"a.plain.{field.name}"
        return f"is_set a.marks.{field.name} {of} i"

    return replaced(current, "marks_kept a i = record {\n", "}\n", lines(2, (f"{it.name} = {kept(it)};" for it in by("mark"))))


def mark_bits(current):
    """The number of marks, which is the only number of two digits here but that of the bits of a word."""
    return re.sub(r"\b(?!64\b)\d\d\b", str(len(by("mark"))), current)


def both_unset(indent, group):
    return lines(indent, (f"{field.name} = both_unset _ _ _ _ (none {field.variant} refl);" for field in in_group(group)))


def variants(current, *groups):
    return replaced(current, "Mark.TheVariants.{", "}\n", ", ".join(field.variant for group in groups for field in in_group(group)))


def same_group(group):
    def make(current):
        begin = f"    let same : Same{group} (the_view a) (the_view b) = record {{\n"
        return replaced(variants(current, group), begin, "    } in\n", both_unset(6, group))

    return make


def same_rarer(current):
    begin = "    let same : SameRarer (the_view a) (the_view b) = record {\n"
    made = "".join(f"      {group.lower()} = record {{\n{both_unset(8, group)}      }};\n" for group in MARKED)
    return replaced(variants(current, *MARKED), begin, "    } in\n", made)


def same_marks(current):
    made = lines(8, (f"{field.name} = ap (λ (m : MarkSet). m.{field.name}) set;" for field in in_group("Marks")))
    return replaced(current, "= mine ∙ c.same.ensures.0 t ∙ sym its in record {\n", "        set = set;\n", made)


PROOFS = SCHEMA / "proofs"
MAKERS = {SCHEMA / "src" / "marks.rt": marks, SCHEMA / "src" / "plain_fields.rt": plain, SCHEMA / "src" / "lib.rt": view}
MAKERS |= {SCHEMA / "src" / "equality.rt": equality, SCHEMA / "specs" / "Marks.antt": mark_sets, SCHEMA / "specs" / "Parts.antt": parts}
MAKERS |= {PROOFS / "MarkedFields.antt": marks_kept, PROOFS / "MarkBits.antt": mark_bits}
MAKERS |= {PROOFS / "Node" / f"same_{group.lower()}" / "Answers.antt": same_group(group) for group in MARKED}
MAKERS |= {PROOFS / "Node" / "same_rarer" / "Answers.antt": same_rarer, PROOFS / "Node" / "same_marks" / "Answers.antt": same_marks}
