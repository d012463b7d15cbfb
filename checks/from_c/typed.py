"""What a type checker says of a program that uses the module for Python: `mypy --strict` accepts this file. Each comment that passes over
an error is needed, or else it is one. The file isn't run.
"""

from typing import List, Optional, Union
from uuid import UUID

from accesskit_proved import CARET, END, Bounds, Color, Event, EventKind, Filter, Flag, Id, Move, Position, Role, Span, Spot, TextStyle
from accesskit_proved import Toggled, Tree, Unit, Update, Wanted

tree = Tree("libaccesskit_proved.so")
update: Update = tree.update(1, root=1, tree=UUID(int=7), toolkit="Kit", version="1")
update.node(1, Role.WINDOW, label="Mail", children=[2, 3]).node(2, "Button", disabled=True, bounds=(0, 0, 64, 64), toggled=Toggled.MIXED)
update.node(3, 328, actions=["Click", 255], overline=("wavy", 1, 2, 3, 4), selection=(4, 1, 5, 0)).send()
events: List[Event] = tree.events()
root: Optional[Id] = tree.root()
if root:
    label: Optional[str] = tree.label(root)
    role: Union[Role, int] = tree.role(root)
    children: List[Id] = tree.filtered_children(root, Filter.COMMON)
    position: Optional[Position] = tree.text_move(root, 0, Move.DOCUMENT_END, is_end=True)
    hidden: bool = tree.flag(root, Flag.HIDDEN) or tree.flag(root, "hidden")
    tree.hit(root, 0, 0, "all")
    url: Optional[str] = tree.field(root, "url")
    labelled: List[int] = tree.field(root, "labelled")
    toggled: Optional[Toggled] = tree.field(root, "toggled")
    color: Optional[Color] = tree.field(root, "background_color")
    busy: bool = tree.field(root, "busy")
    number: int = tree.field(root, "number")  # type: ignore[assignment]
    size: Optional[int] = tree.set_size(root)
    language: Optional[str] = tree.text_style(root, CARET, TextStyle.LANGUAGE)
    weight: Optional[int] = tree.style(root, "font_weight")
    line: str = tree.style(root, "underline")  # type: ignore[assignment]
    word: Optional[Span] = tree.text_unit(root, Spot.utf16(4), Unit.WORD, wanted=Wanted.INDEX | Wanted.LINE)
    if position:
        count: int = position.index + position.lines  # type: ignore[attr-defined]
    boxes: Optional[List[Bounds]] = tree.text_boxes(root, 0, END)
    tree.text_unit(root, "start", Unit.WORD)  # type: ignore[arg-type]
    tree.field(root, 5)  # type: ignore[call-overload]
    tree.label(root.node)  # type: ignore[arg-type]
    tree.hit(root, 0.5, 0)  # type: ignore[arg-type]
    tree.hit(root, 0)  # type: ignore[call-arg]
    tree.flag(root, 0)  # type: ignore[arg-type]
    tree.text_position(root, None)  # type: ignore[arg-type]
tree.label(root)  # type: ignore[arg-type]
tree.lable(root)  # type: ignore[attr-defined]
tree.feed(b"host on\n")  # type: ignore[arg-type]
if events[0].kind is EventKind.FOCUS_MOVED:
    node: int = events[0].old  # type: ignore[assignment]
update.node(2, "Button", lable="Send")  # type: ignore[call-arg]
update.node(2, "Button", label=None)  # type: ignore[arg-type]
update.node(2, "Button", expanded="false")  # type: ignore[arg-type]
update.node(2, "Button", bounds=(0, 0, 64))  # type: ignore[arg-type]
update.node(2, "Button", number=0.5)  # type: ignore[arg-type]
update.node(2, "Button", children=2)  # type: ignore[arg-type]
update.node(2, "Button", tree="00000000-0000-0000-0000-000000000007")  # type: ignore[arg-type]
update.node(root, "Button")  # type: ignore[arg-type]
