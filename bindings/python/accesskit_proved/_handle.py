"""A tree's handle: how it is opened and closed, and how a question is put to the library."""

from __future__ import annotations

import os
import threading
from ctypes import byref, c_char, c_size_t
from itertools import islice
from struct import Struct
from typing import TYPE_CHECKING, Any, Callable, List, Optional, Tuple, Union
from uuid import UUID

from . import _raw
from ._checks import Id, node
from ._errors import RULES, BadLine, Closed, EventsLost, NoMemory, NoNode
from ._raw import BAD_LINE, CLOSED, DONE, LOST, NO_MEMORY, NO_NODE, NOTHING, REFUSED

if TYPE_CHECKING:
    from types import TracebackType
    from typing import Type, TypeVar

    Self = TypeVar("Self", bound="Handle")

Call = Callable[..., int]
# How much of a text, and of a list of ids, is asked for first.
Bytes, Ids = c_char * 256, _raw.Id * 64
# An id as C has it.
_ID = Struct("=QI4x")


class Handle:
    """What all calls of a `Tree` are made by."""

    def __init__(self, library: Union[str, os.PathLike[str], None] = None) -> None:
        """A tree of the shared library at this path, or of the one that is installed with this package."""
        if getattr(self, "_tree", None) is not None:
            raise TypeError("the tree is open already")
        self._calls = _raw.load(_raw.path_of(library))
        self._lock, self._is_sending = threading.RLock(), False
        tree = _raw.Tree(None, False)
        self._check(self._calls.ak_tree_open(tree))
        self._tree = tree

    def __enter__(self: Self) -> Self:
        return self

    def __exit__(self, kind: Optional[Type[BaseException]], error: Optional[BaseException], trace: Optional[TracebackType]) -> None:
        self.close()

    def __del__(self) -> None:
        if getattr(self, "_tree", None) is not None:
            self.close()

    def __reduce_ex__(self, protocol: object) -> Any:
        raise TypeError("a Tree can't be copied or pickled")

    def close(self) -> None:
        """Frees what the tree holds. A closed one stays so."""
        with self._lock:
            self._calls.ak_tree_close(self._tree)

    @property
    def closed(self) -> bool:
        """Whether the tree is closed."""
        with self._lock:
            return not self._tree.is_there

    @staticmethod
    def _check(status: int, stop: Optional[_raw.Stop] = None, id: Optional[Id] = None) -> bool:
        """Whether what was asked for is there; or raises what the status says."""
        if status == DONE or status == NOTHING:
            return status == DONE
        if status == NO_NODE and id is not None:
            raise NoNode(id)
        if status == CLOSED:
            raise Closed
        if status == NO_MEMORY:
            raise NoMemory(stop.done if stop else 0)
        if status == LOST:
            raise EventsLost
        if status == BAD_LINE and stop:
            raise BadLine(stop.line)
        if status == REFUSED and stop:
            raise RULES[stop.rule](stop.node, UUID(bytes=bytes(stop.tree_id)), stop.done)
        raise RuntimeError(f"the library doesn't accept what was checked: answer {status}")

    def _one(self, call: Call, found: Any, id: Id, *asked: object) -> Any:
        """What the call writes of a node, or None."""
        number, tree = node(id)
        with self._lock:
            status = call(self._tree, number, tree, *asked, found)
        return None if status and not self._check(status, id=id) else found

    def _id(self, call: Call, id: Id, *asked: object) -> Optional[Id]:
        found = self._one(call, _raw.Id(), id, *asked)
        return None if found is None else Id(found.node, found.tree)

    def _id_of_tree(self, call: Call, *asked: object) -> Optional[Id]:
        found = _raw.Id()
        with self._lock:
            status = call(self._tree, *asked, found)
        return None if status and not self._check(status) else Id(found.node, found.tree)

    def _list(self, call: Call, of: Any, id: Id, *asked: object) -> Any:
        """What holds a list in its first items, and its length. None if the node has no such list."""
        return self._whole_list(call, of, id, (*node(id), *asked))

    def _whole_list(self, call: Call, of: Any, id: Optional[Id], asked: Tuple[object, ...]) -> Any:
        """A list is asked for again with room for all of it where there wasn't enough."""
        buffer, room, length = of(), of._length_, c_size_t()
        while True:
            with self._lock:
                status = call(self._tree, *asked, byref(buffer), room, length)
            if status and not self._check(status, id=id):
                return None
            if length.value <= room:
                return buffer, length.value
            # (a power of two, since each length is a type of its own)
            room = 1 << length.value.bit_length()
            buffer = (of._type_ * room)()

    def _text_of_tree(self, call: Call) -> Optional[str]:
        found = self._whole_list(call, Bytes, None, ())
        return None if found is None else str(found[0][: found[1]], "utf-8")

    def _items(self, call: Call, of: Any, id: Id, *asked: object) -> Any:
        found = self._list(call, of, id, *asked)
        return None if found is None else found[0][: found[1]]

    def _text(self, call: Call, id: Id, *asked: object) -> Optional[str]:
        # (most texts are short: `_whole_list` at once would cost as much again)
        number, tree = node(id)
        buffer: Any = Bytes()
        length = c_size_t()
        with self._lock:
            status = call(self._tree, number, tree, *asked, byref(buffer), 256, length)
        if status and not self._check(status, id=id):
            return None
        size = length.value
        if size > 256:
            buffer, size = self._whole_list(call, Bytes, id, (number, tree, *asked)) or (buffer, 0)
        return str(buffer[:size], "utf-8")

    def _ids(self, call: Call, id: Id, *asked: object) -> List[Id]:
        found = self._list(call, Ids, id, *asked)
        return [] if found is None else [Id(*it) for it in islice(_ID.iter_unpack(found[0]), found[1])]
