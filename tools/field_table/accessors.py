"""What gets, sets and clears each field, in crates/schema."""

from .table import TOP, by, chain, fields, replaced

SOURCES = TOP / "crates" / "schema" / "src"
# The files that have the fields of a type; those of every other type are in styles.rt.
FILES = {"text": "texts", "flag": "flags", "bool": "flags", "TextSelection": "runs"}
FILES |= dict.fromkeys(("NodeId", "TreeId"), "lists")
FILES |= dict.fromkeys(("usize", "i64", "Rect", "Translation"), "numbers")
ERRORS = """    ///
    /// # Errors
    ///
    /// Returns `AllocError` if memory runs out; the node is then unchanged.
"""


def function(docs, head, clauses, body):
    """A function of `impl Node`."""
    return f"{docs}    pub fn {head}\n" + "".join(f"        ensures {clause}\n" for clause in clauses) + f"    {{\n{body}    }}\n"


def docstring(said):
    return f"    /// {said}\n"


def old_with(field, value):
    return f"record self.old {{ {field.name} = {value} }}"


def plain(field):
    """What gets, sets and clears a field of which a mark says whether it is set."""
    name, getter, type_ = field.name, field.getter, field.type
    mark = f"Mark::{field.variant}"
    yield function(
        docstring(field.said),
        f"{getter}(&self) -> Option<{type_}>",
        [f"{{ result ≡ self.now.{name} }}"],
        chain(8, "self.marks", f".has({mark})", f".then_some(self.plain.{name})"),
    )
    yield function(
        docstring(f"Sets [`Node::{getter}`]."),
        f"set_{name}(&mut self, value: {type_})",
        [f"{{ self.new ≡ {old_with(field, 'Some value')} }}"],
        f"        self.plain.{name} = value;\n        self.marks.add({mark});\n",
    )
    yield cleared(field, "None", f"        self.marks.remove({mark});\n")


def cleared(field, value, body):
    return function(
        docstring(f"Clears [`Node::{field.getter}`]."),
        f"clear_{field.name}(&mut self)",
        [f"{{ self.new ≡ {old_with(field, value)} }}"],
        body,
    )


def flag(field):
    """What gets, sets and clears a boolean field."""
    mark = f"Mark::{field.variant}"
    yield function(
        docstring(field.said),
        f"{field.getter}(&self) -> bool",
        [f"{{ result ≡ self.now.{field.name} }}"],
        f"        self.marks.has({mark})\n",
    )
    yield function(
        docstring(f"Sets [`Node::{field.getter}`]."),
        f"set_{field.name}(&mut self)",
        [f"{{ self.new ≡ {old_with(field, 'true')} }}"],
        f"        self.marks.add({mark});\n",
    )
    yield cleared(field, "false", f"        self.marks.remove({mark});\n")


def text(field):
    """What gets, sets and clears a rare text."""
    name, key = field.name, f"RareText::{field.variant}"
    unchanged = "err { OnErr result (self.new ≡ self.old) }"
    yield function(
        docstring(field.said),
        f"{name}(&self) -> Option<&str>",
        [f"{{ option_copied result ≡ self.now.{name} }}"],
        f"        self.rare.text({key})\n",
    )
    yield function(
        docstring(f"Sets [`Node::{name}`] to a copy of `text`.") + ERRORS,
        f"set_{name}(&mut self, text: &str) -> Result<(), AllocError>",
        [f"ok {{ OnOk result (self.new ≡ {old_with(field, 'Some text.now')}) }}", unchanged],
        "        let copy = String::from_str(self.alloc, text)?;\n" + chain(8, "self.rare", f".set_text(self.alloc, {key}, copy)"),
    )
    yield function(
        docstring(f"Sets [`Node::{name}`] to this text, which is not copied.") + ERRORS,
        f"take_{name}(&mut self, text: String) -> Result<(), AllocError>",
        [f"ok {{ OnOk result (self.new ≡ {old_with(field, 'Some (string_bytes text)')}) }}", unchanged],
        chain(8, "self.rare", f".set_text(self.alloc, {key}, text)"),
    )
    yield cleared(field, "None", f"        self.rare.clear_text({key});\n")


def accessors(file):
    """What gets, sets and clears the fields of a file, in the order of the rows."""
    made = []
    for field in fields():
        if field.type != "-" and FILES.get(field.type, "styles") == file:
            made += {"flag": flag, "text": text}.get(field.type, plain)(field)
    return "\n".join(made)


def whole(file):
    """All of `impl Node` in a file."""
    return lambda current: replaced(current, "\nimpl Node {\n", "\n}\n", accessors(file).removesuffix("\n"))


def texts(current):
    begin = "        self.run.clear_value(self.alloc);\n    }\n"
    return replaced(current, begin, "\n}\n", "\n" + accessors("texts").removesuffix("\n"))


def lists(current):
    begin = "        self.rare.clear_controls(self.alloc);\n    }\n"
    return replaced(current, begin, "\n    /// Whether a tree is grafted here.\n", "\n" + accessors("lists"))


def runs(current):
    return replaced(current, "\nimpl Node {\n", "\n    /// The length of each character", accessors("runs"))


# ---- the builder


# The fields of which the builder's calls are regular, and the words by which they say their argument.
LISTS = {"children": ("ids", "&[NodeId]"), "labelled_by": ("ids", "&[NodeId]"), "controls": ("ids", "&[NodeId]")}
LISTS |= {"character_lengths": ("lengths", "&[u16]"), "word_starts": ("starts", "&[u16]")}
OPTIONAL_LISTS = {"character_positions": ("positions", "&[i32]"), "character_widths": ("widths", "&[i32]")}


COPIED = "Sets [`Node::{}`] to a copy of the argument. If memory runs out, [`NodeBuilder::build`] fails."


def copied(field, argument, type_, value):
    """A call of the builder that copies its argument."""
    name = field.name
    return function(
        docstring(COPIED.format(name)),
        f"{name}(mut self, {argument}: {type_}) -> NodeBuilder",
        [f"{{ IsChangedOrRefused (λ d. record d {{ {name} = {value} }}) self result }}"],
        f"        self.is_refused |= self.node.set_{name}({argument}).is_err();\n        self\n",
    )


def changed(field, parameter, value, argument):
    """A call of the builder that takes no memory."""
    return function(
        docstring(f"Sets [`Node::{field.getter}`]."),
        f"{field.name}(mut self{parameter}) -> NodeBuilder",
        [f"{{ result ≡ changed (λ d. record d {{ {field.name} = {value} }}) self }}"],
        f"        self.node.set_{field.name}({argument});\n        self\n",
    )


def built_u8(name):
    """How the call begins that copies a list of bytes, which is by hand."""
    return "\n" + docstring(COPIED.format(name)) + f"    pub fn {name}_u8("


def built(field):
    """The builder's call for a field."""
    if field.name in LISTS:
        argument, type_ = LISTS[field.name]
        return copied(field, argument, type_, f"{argument}.now")
    if field.name in OPTIONAL_LISTS:
        argument, type_ = OPTIONAL_LISTS[field.name]
        return copied(field, argument, type_, f"Some {argument}.now")
    if field.type in ("text", "-"):
        return copied(field, "text", "&str", "Some text.now")
    if field.type == "flag":
        return changed(field, "", "true", "")
    argument = "id" if field.type in ("NodeId", "TreeId") else "value"
    return changed(field, f", {argument}: {field.type}", f"Some {argument}", argument)


# What is before and after each row of calls that are written: between two rows the place has a gap, for calls that are by hand.
ROWS_OF_CALLS = (
    ("        Ok(self.node)\n    }\n", "\n    /// Adds an id at the end of"),
    ("self.node.push_child(id).is_err();\n        self\n    }\n", built_u8("character_lengths")),
    ("self.node.set_word_starts_u8(starts).is_err();\n        self\n    }\n", "\n    /// Adds an action that the node supports"),
)


def builder(current):
    """The builder's calls."""
    rows = []
    for field in by("build"):
        if not rows or field.build != rows[-1][-1].build + 1:
            rows.append([])
        rows[-1].append(field)
    for (begin, end), row in zip(ROWS_OF_CALLS, rows):
        current = replaced(current, begin, end, "\n" + "\n".join(map(built, row)))
    return current


MAKERS = {SOURCES / f"{file}.rt": whole(file) for file in ("numbers", "flags", "styles")}
MAKERS |= {SOURCES / "texts.rt": texts, SOURCES / "lists.rt": lists, SOURCES / "runs.rt": runs, SOURCES / "builder.rt": builder}
