"""A tree, which is fed and read."""

from __future__ import annotations

from ctypes import c_bool, c_size_t
from typing import TYPE_CHECKING, Any, List, NamedTuple, Optional, Tuple

from . import _raw
from ._checks import Id, text, tree_id, truth
from ._errors import Closed, EventsLost
from ._fields import Fields
from ._handle import Call
from ._names import EventKind
from ._nodes import Nodes
from ._raw import NO_MEMORY
from ._texts import Texts
from ._update import Update

if TYPE_CHECKING:
    from uuid import UUID


class Event(NamedTuple):
    """A change: `kind` is one of `EventKind`, `old` and `new` the node before and after it, where there is one."""

    kind: EventKind
    old: Optional[Id]
    new: Optional[Id]


_KINDS = tuple(EventKind)


class Tree(Nodes, Fields, Texts):
    """A tree, which has nothing until it is fed. Use it in a `with`, or call `close`; one that goes out of use is closed too.

    Threads can share it: each call has the tree for itself, by a lock. A question about a node that the tree hasn't raises `NoNode`, and
    one that has no answer for a node is answered by None; of a closed tree each call raises `Closed`. Numbers out of range, texts with
    surrogates and unknown names are a `ValueError`, values of another type a `TypeError`: nothing is changed then."""

    def feed(self, lines: str) -> None:
        """Carries out whole commands, given as text. Raises `BadLine`, `NoMemory`, or a `Refused` by its rule's name."""
        data, stop = text(lines, "lines"), _raw.Stop()
        with self._lock:
            status = self._calls.ak_tree_feed(self._tree, data, len(data), stop)
        self._check(status, stop)

    def update(
        self,
        focus: int,
        root: Optional[int] = None,
        tree: Optional[UUID] = None,
        toolkit: Optional[str] = None,
        version: Optional[str] = None,
    ) -> Update:
        """Begins an update of a tree: of the root tree, or of the one with this `uuid.UUID`. `focus` is the node that has the focus there,
        and `root` the tree's root, which its first update has to say. The toolkit's name and version only go with a root."""
        if self.closed:
            raise Closed
        return Update(self, focus, root, tree, toolkit, version)

    def _send(self, update: Update) -> None:
        """Says all of an update to the library, and sends it."""
        stop = _raw.Stop()
        with self._lock:
            # (a signal's handler, or what the garbage collector calls, may come in between)
            if self._is_sending:
                raise RuntimeError("the tree is being sent an update")
            said, update._said = update._said, None
            if said is None:
                raise ValueError("the update is sent already")
            self._is_sending = True
            try:
                status = self._say(said, stop)
            finally:
                self._is_sending = False
            if status == NO_MEMORY and stop.done == 0:
                update._said = said
        self._check(status, stop)

    def _say(self, said: List[Tuple[Call, Tuple[Any, ...]]], stop: _raw.Stop) -> int:
        tree = self._tree
        for call, given in said:
            status = call(tree, *given)
            if status:
                return status
        return int(self._calls.ak_update_send(tree, stop))

    def set_host_focus(self, is_focused: bool) -> None:
        """Says whether the host window has the focus."""
        is_focused = truth(is_focused, "is_focused")
        with self._lock:
            status = self._calls.ak_tree_host_focus(self._tree, is_focused)
        if status == NO_MEMORY:
            raise EventsLost
        self._check(status)

    def events(self) -> List[Event]:
        """What the last lines, the last update or the last change of the host's focus has changed, in order."""
        count, event, events = c_size_t(), _raw.Event(), []
        with self._lock:
            self._check(self._calls.ak_tree_event_count(self._tree, count))
            for index in range(count.value):
                if not self._check(self._calls.ak_tree_event(self._tree, index, event)):
                    raise RuntimeError("the tree has changed while its events were read")
                old = Id(event.old_node, event.old_tree) if event.has_old else None
                new = Id(event.new_node, event.new_tree) if event.has_new else None
                events.append(Event(_KINDS[event.kind], old, new))
        return events

    def root(self) -> Optional[Id]:
        """The root tree's root."""
        return self._id_of_tree(self._calls.ak_tree_root)

    def focus(self) -> Optional[Id]:
        """What has the focus, while the host has it."""
        return self._id_of_tree(self._calls.ak_tree_focus)

    def declared_focus(self) -> Optional[Id]:
        """The node that the trees declare focused, across grafts, whether or not the host has the focus."""
        return self._id_of_tree(self._calls.ak_tree_declared_focus)

    def is_host_focused(self) -> Optional[bool]:
        """Whether the host window has the focus; None before there is a tree."""
        found = c_bool()
        with self._lock:
            status = self._calls.ak_tree_is_host_focused(self._tree, found)
        return found.value if self._check(status) else None

    def active_dialog(self) -> Optional[Id]:
        """The nearest dialog among what has the focus and its ancestors."""
        return self._id_of_tree(self._calls.ak_tree_active_dialog)

    def subtree_root(self, tree: Optional[UUID] = None) -> Optional[Id]:
        """The root of the tree with this `uuid.UUID`, or else of the root tree."""
        data = b"" if tree is None else tree_id(tree, "tree")
        return self._id_of_tree(self._calls.ak_tree_subtree_root, data, len(data))

    def toolkit_name(self) -> Optional[str]:
        """The name of the toolkit: `AccessKit` if none was sent; None before there is a tree."""
        return self._text_of_tree(self._calls.ak_tree_toolkit_name)

    def toolkit_version(self) -> Optional[str]:
        """The version of the toolkit, if it was sent with a name."""
        return self._text_of_tree(self._calls.ak_tree_toolkit_version)
