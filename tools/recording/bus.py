"""The accessibility bus of a desktop: its applications, and one of them as a source of answers and events."""

import os
import time

from recording.dbus import MEMBER, PATH, INTERFACE, BusError, Call, Connection
from recording.sources import ATSPI, REGISTRY, ROOT
from recording.turns import Event

DBUS, PROPERTIES = "org.freedesktop.DBus", "org.freedesktop.DBus.Properties"
STATUS = ("IsEnabled", "ScreenReaderEnabled")
# Seconds in which the accessibility bus has to start.
STARTING = 20
KINDS = ["children-changed", "property-change", "state-changed", "text-changed", "text-caret-moved", "text-selection-changed"]
KINDS += ["bounds-changed", "visible-data-changed", "active-descendant-changed", "selection-changed", "model-changed", "attributes-changed"]
KINDS = [f"object:{kind}" for kind in KINDS] + ["window:", "document:", "focus:"]
INTERFACES = ["Object", "Window", "Document", "Focus"]


class Missing(Exception):
    """What a recorder needs isn't there."""


def session_address():
    """The address of the session bus."""
    folder = os.environ.get("XDG_RUNTIME_DIR")
    address = os.environ.get("DBUS_SESSION_BUS_ADDRESS")
    if not address and folder and os.path.exists(f"{folder}/bus"):
        address = f"unix:path={folder}/bus"
    if not address:
        raise Missing("there is no session bus: run this in a desktop session, or by dbus-run-session")
    return address


class Bus:
    """The accessibility bus. Toolkits are asked to use it for as long as this is open."""

    def __init__(self):
        try:
            self.session = Connection(session_address())
        except BusError as error:
            raise Missing(f"the session bus can't be reached: {error}") from error
        answer = self.session.ask([Call("org.a11y.Bus", "/org/a11y/bus", "org.a11y.Bus", "GetAddress")], STARTING)[0]
        if not answer or not answer[0]:
            raise Missing("there is no accessibility bus on this session bus: install at-spi2-core")
        try:
            self.connection = Connection(answer[0])
        except BusError as error:
            raise Missing(f"the accessibility bus can't be reached: {error}") from error
        self.were_off = [name for name in STATUS if self.status(name) is False]
        self.set_status(True)

    def status(self, name):
        answer = self.session.ask([Call("org.a11y.Bus", "/org/a11y/bus", PROPERTIES, "Get", "ss", ("org.a11y.Status", name))])[0]
        return answer[0] if answer else None

    def set_status(self, is_on):
        """Says whether there is a screen reader, on which toolkits wait; if there was one before, nothing is said."""
        of = ("org.a11y.Bus", "/org/a11y/bus", PROPERTIES, "Set", "ssv")
        self.session.ask([Call(*of, ("org.a11y.Status", name, ("b", is_on))) for name in self.were_off])

    def close(self):
        self.set_status(False)
        self.connection.close()
        self.session.close()

    def applications(self):
        """The applications: the name of each, and its name on the bus."""
        answer = self.connection.ask([Call(f"{ATSPI}Registry", ROOT, f"{ATSPI}Accessible", "GetChildren")])[0]
        if answer is None:
            raise Missing("the accessibility bus has no registry: install at-spi2-core")
        names = [Call(name, path, PROPERTIES, "Get", "ss", (f"{ATSPI}Accessible", "Name")) for name, path in answer[0]]
        answers = zip(self.connection.ask(names), answer[0])
        return [(told[0], name) for told, (name, _) in answers if told and name != self.connection.name]

    def find(self, word, seconds):
        """The application of this name, or whose name has this in it, once it is there; the last one, of several."""
        end = time.monotonic() + seconds
        while True:
            found = self.applications()
            chosen = [one for one in found if one[0] == word] or [one for one in found if word.lower() in one[0].lower()]
            if chosen:
                return chosen[-1]
            if time.monotonic() > end:
                others = ", ".join(name for name, _ in found) or "none"
                raise Missing(f"no application {word} on the accessibility bus; there are: {others}")
            time.sleep(0.1)


class Live:
    """An application on the bus: answers its questions, and has its events."""

    def __init__(self, bus, owner, keeper=None):
        self.connection, self.owner, self.keeper = bus.connection, owner, keeper
        self.events, self.has_ended = [], False
        rules = [f"type='signal',sender='{owner}',interface='{ATSPI}Event.{name}'" for name in INTERFACES]
        rules.append(f"type='signal',sender='{DBUS}',member='NameOwnerChanged',arg0='{owner}'")
        self.connection.ask([Call(DBUS, "/org/freedesktop/DBus", DBUS, "AddMatch", "s", (rule,)) for rule in rules])
        self.connection.ask([Call(f"{ATSPI}Registry", REGISTRY, f"{ATSPI}Registry", "RegisterEvent", "s", (kind,)) for kind in KINDS])

    def step(self, name, given=()):
        """Begins a step of the recording."""
        if self.keeper:
            self.keeper.step(name, [list(event) for event in given])

    def ask(self, questions):
        """The answers to questions: pairs of a path and a `Question`."""
        calls = []
        for path, asked in questions:
            interface = PROPERTIES if asked.interface == "Properties" else ATSPI + asked.interface
            calls.append(Call(self.owner, path, interface, asked.method, asked.signature, asked.arguments))
        answers = self.connection.ask(calls)
        if self.keeper:
            for (path, asked), answer in zip(questions, answers):
                self.keeper.answered(path, asked.key(), answer)
        return answers

    def hear(self):
        """Takes the signals that have come."""
        for signal in self.connection.signals:
            if signal.fields.get(MEMBER) == "NameOwnerChanged":
                self.has_ended = True
            elif signal.fields.get(INTERFACE, "").startswith(f"{ATSPI}Event."):
                self.events.append(Event.of(signal.fields[MEMBER], signal.fields[PATH], signal.body))
        self.connection.signals.clear()

    def is_waiting(self):
        """Whether events wait that no turn has taken."""
        self.connection.receive(0)
        self.hear()
        if self.keeper:
            self.keeper.note("waiting", bool(self.events))
        return bool(self.events)

    def wait(self, seconds, quiet, longest):
        """The events of a turn: waits at most so long for the first, then until none has come for a quiet time, and at most the longest;
        with the time of the first."""
        end, begun = time.monotonic() + seconds, None
        while not self.has_ended:
            self.hear()
            now = time.monotonic()
            if self.events and begun is None:
                begun, end = now, now + quiet
            if now >= end:
                break
            if self.connection.receive(end - now) and begun is not None:
                end = min(time.monotonic() + quiet, begun + longest)
        found, self.events = self.events, []
        return found, begun


class Replayed:
    """An application whose answers were kept."""

    def __init__(self, kept):
        self.kept, self.owner = kept, kept.about["owner"]

    def ask(self, questions):
        return self.kept.ask([(path, asked.key()) for path, asked in questions])

    def is_waiting(self):
        return bool(self.kept.at.get("waiting"))
