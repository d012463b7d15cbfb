"""The library's structures and calls, as include/accesskit_proved.h declares them: `checks/header` compares both with its exports.

Nothing here checks a value: `_checks` does, before a call is made.
"""

from __future__ import annotations

import ctypes
import os
from ctypes import POINTER, c_bool, c_int32, c_int64, c_size_t, c_uint8, c_uint32, c_uint64, c_void_p
from typing import Any, Dict, List, Tuple, Union

DONE, NO_MEMORY, CLOSED, NOTHING, BAD_LINE, REFUSED, OUT_OF_PLACE, NO_NODE, NO_SUCH, LOST = range(10)


def _layout(**fields: Any) -> List[Tuple[str, Any]]:
    return list(fields.items())


class Tree(ctypes.Structure):
    _fields_ = _layout(at=c_void_p, is_there=c_bool)


class Id(ctypes.Structure):
    _fields_ = _layout(node=c_uint64, tree=c_uint32)


class Event(ctypes.Structure):
    _fields_ = _layout(old_node=c_uint64, new_node=c_uint64, old_tree=c_uint32, new_tree=c_uint32)
    _fields_ += _layout(kind=c_uint8, has_old=c_bool, has_new=c_bool)


class Stop(ctypes.Structure):
    _fields_ = _layout(line=c_uint64, done=c_uint64, node=c_uint64, tree_id=c_uint8 * 16, rule=c_uint8)


class Bounds(ctypes.Structure):
    _fields_ = _layout(x0=c_int64, y0=c_int64, x1=c_int64, y1=c_int64)


class Position(ctypes.Structure):
    _fields_ = _layout(run=c_uint64, character=c_size_t, index=c_size_t, utf16_index=c_size_t, line=c_size_t, is_end=c_bool)


class Rect(ctypes.Structure):
    _fields_ = _layout(x0=c_int32, y0=c_int32, x1=c_int32, y1=c_int32)


class Translation(ctypes.Structure):
    _fields_ = _layout(x=c_int32, y=c_int32)


class Selection(ctypes.Structure):
    _fields_ = _layout(anchor=c_uint64, anchor_character=c_size_t, focus=c_uint64, focus_character=c_size_t)


class Color(ctypes.Structure):
    _fields_ = _layout(red=c_uint8, green=c_uint8, blue=c_uint8, alpha=c_uint8)


class Decoration(ctypes.Structure):
    _fields_ = _layout(style=c_uint32, color=Color)


class Point(ctypes.Structure):
    _fields_ = _layout(x=c_int64, y=c_int64)


class StyleValue(ctypes.Structure):
    _fields_ = _layout(number=c_uint32, red=c_uint8, green=c_uint8, blue=c_uint8, alpha=c_uint8)


class Spot(ctypes.Structure):
    _fields_ = _layout(kind=c_uint32, is_end=c_bool, run=c_uint64, index=c_size_t, x=c_int64, y=c_int64)


class Defect(ctypes.Structure):
    _fields_ = _layout(run=c_uint64, link=c_uint64, run_tree=c_uint32, rule=c_uint8)


class Span(ctypes.Structure):
    _fields_ = _layout(start=Position, end=Position)


TREE, SIZE = POINTER(Tree), POINTER(c_size_t)
# A node: its id, and the index of its tree.
NODE = (TREE, c_uint64, c_uint32)
FIELD = (*NODE, c_uint32)
# What is passed as an address with a length after it, for the call to read or to fill.
LENT = (c_void_p, c_size_t)
LIST = (*LENT, SIZE)
PLACE = POINTER(Position)
# A text, and a position in it by one of its names.
SPOT = (*NODE, POINTER(Spot))

# What each call takes. All but those of GIVES answer with a status.
CALLS: Dict[str, Tuple[Any, ...]] = {
    "ak_version": (),
    "ak_tree_open": (TREE,),
    "ak_tree_close": (TREE,),
    "ak_tree_feed": (TREE, *LENT, POINTER(Stop)),
    "ak_tree_host_focus": (TREE, c_bool),
    "ak_tree_event_count": (TREE, SIZE),
    "ak_tree_event": (TREE, c_size_t, POINTER(Event)),
    "ak_tree_root": (TREE, POINTER(Id)),
    "ak_tree_focus": (TREE, POINTER(Id)),
    "ak_update_begin": (TREE, *LENT, c_uint64),
    "ak_update_root": (TREE, c_uint64),
    "ak_update_toolkit_name": (TREE, *LENT),
    "ak_update_toolkit_version": (TREE, *LENT),
    "ak_update_node": (TREE, c_uint64, c_uint32),
    "ak_update_ids": (TREE, c_uint32, *LENT),
    "ak_update_id": (TREE, c_uint32, c_uint64),
    "ak_update_text": (TREE, c_uint32, *LENT),
    "ak_update_flag": (TREE, c_uint32),
    "ak_update_bool": (TREE, c_uint32, c_bool),
    "ak_update_choice": (TREE, c_uint32, c_uint32),
    "ak_update_number": (TREE, c_uint32, c_int64),
    "ak_update_count": (TREE, c_uint32, c_size_t),
    "ak_update_numbers": (TREE, c_uint32, *LENT),
    "ak_update_units": (TREE, c_uint32, *LENT),
    "ak_update_action": (TREE, c_uint32, c_uint32),
    "ak_update_tree": (TREE, c_uint32, *LENT),
    "ak_update_rect": (TREE, c_uint32, c_int32, c_int32, c_int32, c_int32),
    "ak_update_translation": (TREE, c_uint32, c_int32, c_int32),
    "ak_update_selection": (TREE, c_uint32, c_uint64, c_size_t, c_uint64, c_size_t),
    "ak_update_color": (TREE, c_uint32, c_uint8, c_uint8, c_uint8, c_uint8),
    "ak_update_decoration": (TREE, c_uint32, c_uint32, c_uint8, c_uint8, c_uint8, c_uint8),
    "ak_update_send": (TREE, POINTER(Stop)),
    "ak_node_parent": (*NODE, POINTER(Id)),
    "ak_node_children": (*NODE, *LIST),
    "ak_node_role": (*NODE, *LIST),
    "ak_node_label": (*NODE, *LIST),
    "ak_node_value": (*NODE, *LIST),
    "ak_node_text": (*NODE, *LIST),
    "ak_node_role_number": (*NODE, POINTER(c_uint32)),
    "ak_node_bounds": (*NODE, POINTER(Bounds)),
    "ak_node_flag": (*NODE, c_uint32, POINTER(c_bool)),
    "ak_node_filter": (*NODE, c_uint32, POINTER(c_uint32)),
    "ak_node_hit": (*NODE, c_int64, c_int64, c_uint32, POINTER(Id)),
    "ak_node_filtered_parent": (*NODE, c_uint32, POINTER(Id)),
    "ak_node_filtered_children": (*NODE, c_uint32, *LIST),
    "ak_text_position": (*NODE, c_size_t, c_bool, PLACE),
    "ak_text_move": (*NODE, c_size_t, c_bool, c_uint32, PLACE),
    "ak_text_selection_anchor": (*NODE, PLACE),
    "ak_text_selection_focus": (*NODE, PLACE),
    "ak_text_between": (*NODE, c_size_t, c_size_t, *LIST),
    "ak_rule_name": (c_uint32, *LIST),
    "ak_role_name": (c_uint32, *LIST),
    "ak_tree_subtree_root": (TREE, *LENT, POINTER(Id)),
    "ak_tree_declared_focus": (TREE, POINTER(Id)),
    "ak_tree_is_host_focused": (TREE, POINTER(c_bool)),
    "ak_tree_active_dialog": (TREE, POINTER(Id)),
    "ak_tree_toolkit_name": (TREE, *LIST),
    "ak_tree_toolkit_version": (TREE, *LIST),
    "ak_node_state": (*NODE, c_uint32, POINTER(c_uint32)),
    "ak_node_count": (*NODE, c_uint32, c_uint32, SIZE),
    "ak_node_child_at": (*NODE, c_uint32, c_size_t, POINTER(Id)),
    "ak_node_relative": (*NODE, c_uint32, c_uint32, POINTER(Id)),
    "ak_node_list": (*NODE, c_uint32, c_uint32, *LIST),
    "ak_node_supports_action": (*NODE, c_uint32, c_uint32, POINTER(c_bool)),
    "ak_node_flags": (*NODE, c_uint64, POINTER(c_uint64)),
    "ak_node_transform": (*NODE, POINTER(Point)),
    "ak_node_point": (*NODE, c_int64, c_int64, POINTER(Point)),
    "ak_node_style": (*NODE, c_uint32, POINTER(StyleValue)),
    "ak_node_style_text": (*NODE, c_uint32, *LIST),
    "ak_node_tree_id": (*NODE, *LIST),
    "ak_text_place": (*SPOT, c_uint32, PLACE),
    "ak_text_moved": (*SPOT, c_uint32, c_uint32, PLACE),
    "ak_text_test": (*SPOT, c_uint32, POINTER(c_bool)),
    "ak_text_unit": (*SPOT, c_uint32, c_uint32, POINTER(Span)),
    "ak_text_line": (*NODE, c_size_t, c_uint32, POINTER(Span)),
    "ak_text_length": (*NODE, SIZE),
    "ak_text_boxes": (*SPOT, POINTER(Spot), *LIST),
    "ak_text_style": (*SPOT, c_uint32, POINTER(StyleValue)),
    "ak_text_style_text": (*SPOT, c_uint32, *LIST),
    "ak_text_differs": (*SPOT, POINTER(Spot), c_uint32, POINTER(c_bool)),
    "ak_text_defect": (*NODE, POINTER(Defect)),
    "ak_field_text": (*FIELD, *LIST),
    "ak_field_ids": (*FIELD, *LIST),
    "ak_field_numbers": (*FIELD, *LIST),
    "ak_field_units": (*FIELD, *LIST),
    "ak_field_actions": (*FIELD, *LIST),
    "ak_field_tree": (*FIELD, *LIST),
    "ak_field_id": (*FIELD, POINTER(c_uint64)),
    "ak_field_flag": (*FIELD, POINTER(c_bool)),
    "ak_field_choice": (*FIELD, POINTER(c_uint32)),
    "ak_field_number": (*FIELD, POINTER(c_int64)),
    "ak_field_count": (*FIELD, SIZE),
    "ak_field_rect": (*FIELD, POINTER(Rect)),
    "ak_field_translation": (*FIELD, POINTER(Translation)),
    "ak_field_selection": (*FIELD, POINTER(Selection)),
    "ak_field_color": (*FIELD, POINTER(Color)),
    "ak_field_decoration": (*FIELD, POINTER(Decoration)),
}

GIVES: Dict[str, Any] = {"ak_version": c_uint32, "ak_tree_close": None}

_loaded: Dict[str, ctypes.CDLL] = {}


def load(path: str) -> ctypes.CDLL:
    """The library at this path, with its calls declared. Each is loaded once."""
    found = _loaded.get(path)
    if found is None:
        found = ctypes.CDLL(path)
        for name, takes in CALLS.items():
            call = getattr(found, name, None)
            if call is None:
                raise OSError(f"{path}: not this library, or not of this version: it has no {name}")
            call.argtypes, call.restype = takes, GIVES.get(name, c_uint8)
        found = _loaded.setdefault(path, found)
    return found


def path_of(library: Union[str, os.PathLike[str], None]) -> str:
    """The path of a library: of the one in the folder of this package, where an installed one has it, if none is named."""
    path = os.fspath(os.path.join(os.path.dirname(os.path.abspath(__file__)), "libaccesskit_proved.so") if library is None else library)
    if not isinstance(path, str):
        raise TypeError(f"library: expected a path as str, got {path!r}")
    return path
