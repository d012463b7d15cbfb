"""A look at a page: what DevTools answers of its accessibility tree and of its layout, as plain values.

A page may have anything in it, and a browser may change what it answers. What is of another type than expected is noted, and left out.
"""

from typing import NamedTuple

from recording.devtools import BrowserError
from recording.names import CHOICE_OF_DEVTOOLS, TEXT_OF_DEVTOOLS
from recording.script import clean

# The field that has the focus: what is typed there, unless it is a password, and its selection, in UTF-16 code units. Of an editable part
# of the page no text, and both ends of the selection, each as the number of a text that is drawn in that part, and a place in it.
FIELD = """(() => {
    let at = document.activeElement;
    while (at && at.shadowRoot && at.shadowRoot.activeElement) at = at.shadowRoot.activeElement;
    if (!at) return null;
    if ("selectionStart" in at) return [at.type == "password" ? "" : at.value, at.selectionStart, at.selectionEnd, at.selectionDirection];
    if (!at.isContentEditable) return null;
    const all = document.createTreeWalker(at, NodeFilter.SHOW_TEXT), chosen = getSelection(), range = document.createRange();
    const ends = [[chosen.anchorNode, chosen.anchorOffset], [chosen.focusNode, chosen.focusOffset]], found = [null, null];
    for (let text, count = 0; (text = all.nextNode()); ) {
        range.selectNodeContents(text);
        if (!range.getClientRects().length) continue;
        ends.forEach(([node, place], end) => { if (node == text) found[end] = [count, place]; });
        count++;
    }
    return [null, ...found, null];
})()"""
SHAPE = "[scrollX, scrollY, innerWidth, innerHeight, document.documentElement.scrollWidth, document.documentElement.scrollHeight]"
SNAPSHOT = {"computedStyles": ["overflow-x", "overflow-y"]}
# Attributes of elements that are read.
ATTRIBUTES = {"type", "required", "aria-required", "aria-valuetext", "aria-posinset", "aria-setsize", *TEXT_OF_DEVTOOLS}
ATTRIBUTES |= {*CHOICE_OF_DEVTOOLS}


class Look(NamedTuple):
    """What was seen of a page: nodes of the accessibility tree by their ids, the root first; elements by theirs; the shape of the page; and
    the field that has the focus."""

    nodes: dict
    elements: dict
    shape: list
    field: list


def look(browser):
    """Asks the browser."""
    calls = [("Accessibility.getFullAXTree", {}), ("DOMSnapshot.captureSnapshot", SNAPSHOT)]
    calls += [("Runtime.evaluate", {"expression": text, "returnByValue": True}) for text in (SHAPE, FIELD)]
    tree, layout, shape, field = browser.ask(*calls)
    shape, field = (one["result"].get("value") if one and "result" in one else None for one in (shape, field))
    try:
        nodes = {str(node["nodeId"]): plain(node) for node in (tree or {}).get("nodes", [])}
        return Look(nodes, elements(layout) if layout else {}, shape, field)
    except (AttributeError, IndexError, KeyError, TypeError) as error:
        raise BrowserError(f"the browser answers in a way that isn't known: {error!r}") from error


def value_of(value):
    """The value of an AXValue, or the elements that it is about."""
    if not isinstance(value, dict):
        return None
    if "relatedNodes" in value:
        return [one.get("backendDOMNodeId") for one in value["relatedNodes"]]
    found = value.get("value")
    return clean(found) if isinstance(found, str) else found


def plain(node):
    """A node of the accessibility tree, with its values."""
    found = {"role": value_of(node.get("role")), "children": node.get("childIds", [])}
    found.update((name, value_of(node[name])) for name in ("name", "description", "value") if name in node)
    found["of"] = node.get("backendDOMNodeId")
    if node.get("ignored"):
        found["ignored"] = True
    if node.get("properties"):
        found["properties"] = {one["name"]: value_of(one.get("value")) for one in node["properties"]}
    return found


def elements(snapshot):
    """The elements of the page's own document: tag, attributes, box, whether it clips, and the boxes of its texts."""
    strings, document = snapshot["strings"], snapshot["documents"][0]
    ids, layout, texts = document["nodes"]["backendNodeId"], document["layout"], document["textBoxes"]
    found = {}
    for at, words in enumerate(document["nodes"]["attributes"]):
        pairs = {strings[words[one]]: clean(strings[words[one + 1]]) for one in range(0, len(words), 2)}
        kept = {name: value for name, value in pairs.items() if name in ATTRIBUTES}
        found[str(ids[at])] = {"tag": strings[document["nodes"]["nodeName"][at]], **({"attributes": kept} if kept else {})}
    for at, node in enumerate(layout["nodeIndex"]):
        one = found[str(ids[node])]
        one["box"] = layout["bounds"][at]
        if any(style >= 0 and strings[style] not in ("visible", "") for style in layout["styles"][at]):
            one["clips"] = True
    for at, node in enumerate(texts["layoutIndex"]):
        one = found[str(ids[layout["nodeIndex"][node]])]
        one.setdefault("texts", []).append([texts["start"][at], texts["length"][at], texts["bounds"][at]])
    return {id: one for id, one in found.items() if len(one) > 1}


def keep(keeper, seen, title):
    """Keeps a look as a step of a recording: what differs from the last one."""
    keeper.step("look", [title])
    for of, values in (("nodes", seen.nodes), ("elements", seen.elements)):
        gone = [id for (kind, id), value in keeper.answers.items() if kind == of and value is not None and id not in values]
        for id in gone:
            keeper.answered(of, id, None)
        for id, value in values.items():
            keeper.answered(of, id, value)
    keeper.answered("page", "order", list(seen.nodes)[:1])
    keeper.answered("page", "shape", seen.shape)
    keeper.answered("page", "field", seen.field)


def kept_look(kept):
    """The look of the present step."""
    nodes, found = kept.answers.get("nodes", {}), kept.answers.get("elements", {})
    root, shape, field = (kept.answers.get("page", {}).get(name) for name in ("order", "shape", "field"))
    nodes = {id: node for id, node in nodes.items() if node is not None}
    first = [one for one in root if isinstance(one, str) and one in nodes] if isinstance(root, list) else []
    return Look({**{id: nodes[id] for id in first}, **nodes}, {id: one for id, one in found.items() if one is not None}, shape, field)
