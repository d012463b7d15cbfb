"""The fields by the kinds of their values, and their numbers for other languages, in crates/script_nodes."""

import re

from .table import TOP, by, columns, replaced

NODES = TOP / "crates" / "script_nodes"
# The kinds that several fields have, in their order: what they are in an enum's docstring, and above their definitions; and what a value
# of such a field is in a node's data.
KINDS = {
    "Ids": ("lists of nodes", "List NodeId"),
    "Id": ("nodes", "Option NodeId"),
    "Text": ("texts", "Option (List ℕ)"),
    "Flag": ("flags", "Bool"),
    "Numbers": ("lists of numbers", "List ℕ"),
    "Units": ("lists of numbers in units of 1/64 pixel", "Option (List ℤ)"),
    "Bool": ("flags that may be unset", "Option Bool"),
    "Color": ("colours", "Option Color"),
    "Decoration": ("lines above, through or below text", "Option TextDecoration"),
    "Number": ("numbers", "Option ℤ"),
    "Count": ("counts", "Option ℕ"),
    "Actions": ("sets of actions", "ℕ"),
}
# The fields that are alone of their kind, in the order in which the crate lists them.
ALONE = ("Tree", "Bounds", "Transform", "Selection", "Toggled", "Live", "Orientation", "SortDirection", "AriaCurrent", "HasPopup", "FontSize")
ALONE += ("FontWeight", "TextDirection", "TextAlign", "VerticalOffset")
# Of a kind whose definition is by this name, since `with_actions` is another one.
PUTS = {"Actions": "with_actions_field"}
WIDTH = 140


def of_kind(kind):
    return [field for field in by("place") if field.kind == kind]


def place(field):
    """How the crate writes a field."""
    return f"Field::{field.kind}({field.kind}Field::{field.which})" if field.kind in KINDS else f"Field::{field.kind}"


def said(field, indent):
    return f"{' ' * indent}/// {field.said_in_a_script}\n" if field.said_in_a_script else ""


# ---- the sources


def enum(current, kind):
    made = "".join(f"{said(field, 4)}    {field.which},\n" for field in of_kind(kind))
    return replaced(current, f"pub enum {kind}Field {{\n", "}\n", made)


def accessed(current, kind):
    """The list of what gets and sets each field of a kind."""
    rows = [f"            {field.which} = {field.getter}, set_{field.name}" for field in of_kind(kind)]
    return replaced(current, f"$form!(($($of)*) {kind}Field {{\n", "        })\n", ";\n".join(rows) + "\n")


def listed():
    """All fields in the order of their places, with a comment where another section begins."""
    section = None
    for field in by("place"):
        if field.section != section:
            section = field.section
            yield f"            // {section}\n"
        yield f'            "{field.script}" = {place(field)},\n'


def kinds(current):
    for kind in KINDS:
        current = enum(current, kind)
        if kind != "Actions":
            current = accessed(current, kind)
    alone = "".join(f"{said(field, 4)}    {kind},\n" for kind in ALONE for field in of_kind(kind))
    several = "".join(f"    {kind}({kind}Field),\n" for kind in KINDS)
    current = replaced(current, "pub enum Field {\n", "}\n", several + alone)
    return replaced(current, "        $form! {\n", "        }\n", "".join(listed()))


def numbers(current):
    made = "".join(f"    ({field.number}, {place(field)}),\n" for field in by("number"))
    current = re.sub(r"(?<=\[\(u32, Field\); )\d+", str(len(by("number"))), current)
    return replaced(current, f"Field); {len(by('number'))}] = [\n", "];\n", made)


# ---- the definitions


def defined(field):
    """The name of a field, its value in a node, and the node with another value."""
    kind = field.kind.lower()
    head = f"{kind}_field {kind}.{field.which} ="
    body = f'field_of (codes "{field.script}") (λ n. n.{field.name}) (λ value n. record n {{ {field.name} = value }})'
    line = f"{head} {body}\n"
    return line if len(line) <= WIDTH else f"{head}\n    {body}\n"


def definitions(kind):
    """What is defined of the fields of a kind."""
    what, type_ = KINDS[kind]
    name = kind.lower()
    put = PUTS.get(kind, f"with_{name}")
    within = f"({type_})" if " " in type_ else type_
    return f"""-- ---- {what}

abbrev pub {name}_field : {kind}Field → NodeField {within}
{"".join(map(defined, of_kind(kind)))}
abbrev pub {name}_at : {kind}Field → NodeData → {type_}
{name}_at which = ({name}_field which).at

abbrev pub {put} : {kind}Field → {type_} → NodeData → NodeData
{put} which = ({name}_field which).put

"""


def as_term(field):
    return f"field.{field.kind} {field.kind.lower()}.{field.which}" if field.kind in KINDS else f"field.{field.kind}"


def list_of(fields):
    """A list of fields, each with what joins it to the next."""
    return columns([f"{as_term(field)} ∷".replace(" ", "\0") for field in fields] + ["[]"], 4, 120).replace("\0", " ")


def names():
    for kind in KINDS:
        yield f"field_name (field.{kind} which) = ({kind.lower()}_field which).name\n"
    for kind in ALONE:
        yield "".join(f'field_name field.{kind} = codes "{field.script}"\n' for field in of_kind(kind))


def field_kinds(current):
    current = replaced(current, "-- ---- lists of nodes\n", "-- ---- all of them\n", "".join(map(definitions, KINDS)).partition("\n")[2])
    current = replaced(current, "abbrev pub field_name : Field → List ℕ\n", "\n-- all fields", "".join(names()))
    return replaced(current, "all_fields =\n", "[]\n", list_of(by("place")).removesuffix("[]\n"))


def field_numbers(current):
    return replaced(current, "numbered_fields =\n", "[]\n", list_of(by("number")).removesuffix("[]\n"))


MAKERS = {NODES / "src" / "field_kinds.rt": kinds, NODES / "src" / "field_numbers.rt": numbers}
MAKERS |= {NODES / "specs" / "FieldKinds.antt": field_kinds, NODES / "specs" / "FieldNumbers.antt": field_numbers}
