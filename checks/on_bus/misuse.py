"""What goes wrong on a bus: there is none, or no registry, or another one; a client asks for what isn't there, sends what no call takes,
asks while the application updates, or stops reading; and what is typed into a password has to stay off the bus. The application goes on
each time."""

import os
import random
import re
import signal
import subprocess
import sys
import tempfile
import threading
import time

from gi.repository import Gio, GLib

from model.scripts import Play
from session import LONGEST, NODES, ROOT, SPI, Listener, Program, application, bus_address, path_of, wait_until

REGISTRY = ["/usr/libexec/at-spi2-registryd", "/usr/lib/at-spi2-core/at-spi2-registryd"]
MANY = 300
SMALL = """update root focus=1 root=0
node 0 Window label="Small" children=1,2,3,4 bounds=0,0,6400,6400
node 1 Button label="Go" actions=Click,Focus bounds=0,0,640,640
node 2 Slider label="How much" number=2000 min=0 max=5000 step=500 actions=Increment bounds=0,640,640,1280
node 3 TextInput label="Words" children=30 selection=30:1,30:4 bounds=0,1280,640,1920
node 30 TextRun value="one two" chars=1,1,1,1,1,1,1 words=0,4
node 4 ListBox label="Some" children=40,41
node 40 ListBoxOption label="First" selected=true actions=Click
node 41 ListBoxOption label="Second" selected=false actions=Click
end
host on
"""
STEP = 'update root focus=1\nnode 1 Button label="Go {}" actions=Click,Focus bounds=0,0,640,640\nend\n'
PAGE = """update root focus=1 root=0
node 0 RootWebArea label="Page" children=1,2,3,4 bounds=0,0,6400,6400
node 1 Link label="Go" url="https://example.org" actions=Click,Focus bounds=0,0,640,640
node 2 Other(328) children=20 bounds=0,640,640,1280
node 20 Label value="Title" bounds=0,640,640,1280
node 3 Paragraph children=30
node 30 Label value="Words"
node 4 Other(370) label="Table" children=5,6
node 5 Other(354) children=50,51
node 50 Other(267) label="Name"
node 51 Other(267) label="Count"
node 6 Other(354) children=60
node 60 Other(356) label="Only"
end
host on
"""
PASSWORDS = """update root focus=1 root=0
node 0 Window label="Log in" children=1,2,3,4
node 1 PasswordInput label="Password" children=10,11
node 10 TextRun chars=1 value="{first}"
node 11 Label value="{shown}"
node 2 PasswordInput label="By value" value="{whole}"
node 3 Document label="Around" children=5
node 5 PasswordInput children=50
node 50 TextRun value="{whole}" chars={lengths}
node 4 Button labelled=11
end
"""
TYPED = """update root focus=1
node 1 PasswordInput label="Password" children=10,11 selection=10:{count},10:{count}
node 10 TextRun value="{typed}" chars={lengths}
end
"""


class Log:
    """What a program writes to its standard error."""

    def __init__(self):
        self.file = tempfile.NamedTemporaryFile("w+", encoding="utf-8")

    def has(self, words, seconds=LONGEST, count=1):
        def read():
            with open(self.file.name, encoding="utf-8") as file:
                return file.read().count(words) >= count

        return wait_until(read, seconds)


def start(program, name, script=SMALL, **how):
    """The program with a script, which is told to go on as far as it goes."""
    return Program(program, script, "--name", name, **how)


def goes_on(running, count=1):
    """Whether so many further commands of its script are carried out."""
    return all(running.say()[0].startswith("ok") for _ in range(count))


# ---- no bus, no registry


def without_bus(checks, program):
    """There is no session bus: one message, and the interface goes on."""
    log = Log()
    environment = {it: value for it, value in os.environ.items() if it != "AT_SPI_BUS_ADDRESS"}
    environment["DBUS_SESSION_BUS_ADDRESS"] = "unix:path=/nonexistent"
    running = start(program, "Without", SMALL + STEP.format(1), environment=environment, stderr=log.file)
    checks.that(log.has("there is no accessibility bus"), "no message that there is no bus")
    checks.that(goes_on(running, 2), "without a bus it doesn't go on")
    running.say("quit")
    checks.that(running.end() == 0, "without a bus it doesn't end well")


def without_registry(checks, program):
    """A bus that has no registry: one message; when one comes, the application is found. Then the bus ends, and there is another one at the
    same address: the application is found there."""
    registry = next((it for it in REGISTRY if os.path.exists(it)), None)
    with tempfile.TemporaryDirectory() as folder:
        config, address = os.path.join(folder, "bus.conf"), f"unix:path={folder}/bus"
        with open(config, "w", encoding="utf-8") as file:
            file.write(
                f"<busconfig><type>session</type><listen>{address}</listen><policy context='default'>"
                "<allow send_destination='*' eavesdrop='true'/><allow eavesdrop='true'/><allow own='*'/></policy></busconfig>"
            )
        environment = {**os.environ, "AT_SPI_BUS_ADDRESS": address}
        buses, registries = [begin_bus(config)], []
        log = Log()
        running = start(program, "Alone", SMALL + STEP.format(1) + STEP.format(2), environment=environment, stderr=log.file)
        checks.that(log.has("registry doesn't take"), "no message that there is no registry")
        checks.that(goes_on(running, 2), "without a registry it doesn't go on")
        for again in (1, 2) if registry else ():
            registries.append(begin_registry(registry, environment))
            checks.that(log.has("find this application again", count=again), f"registry {again} isn't noticed")
            buses[-1].kill()
            buses[-1].wait()
            checks.that(log.has("the accessibility bus is gone", count=again), "no message that the bus is gone")
            if again == 1:
                buses.append(begin_bus(config))
        checks.that(goes_on(running), "without its bus it doesn't go on")
        for it in registries:
            it.kill()
            it.wait()
        running.say("quit")
        checks.that(running.end() == 0, "without its bus it doesn't end well")
        if not registry:
            buses[-1].kill()
            buses[-1].wait()


def begin_bus(config):
    """A bus of its own, once it can be reached."""
    bus = subprocess.Popen(["dbus-daemon", f"--config-file={config}", "--print-address", "--nofork"], stdout=subprocess.PIPE, text=True)
    bus.stdout.readline()
    return bus


def begin_registry(registry, environment):
    return subprocess.Popen([registry], env=environment, stdout=subprocess.DEVNULL, stderr=subprocess.DEVNULL)


def registry_again(checks, program):
    """The registry is killed, and comes again: the application is in it again."""
    log = Log()
    running = start(program, "Again", SMALL + STEP.format(1) + STEP.format(2), stderr=log.file)
    found = application("Again")
    listener = Listener(found.app.bus_name)
    names = "org.freedesktop.DBus"
    process = listener.bus.call_sync(
        names, "/org/freedesktop/DBus", names, "GetConnectionUnixProcessID", GLib.Variant("(s)", (SPI + "Registry",)), None, 0, -1
    )
    os.kill(process.unpack()[0], signal.SIGKILL)
    checks.that(log.has("find this application again"), "the registry came again, and it isn't noticed")

    def is_listed():
        asked = listener.bus.call_sync(SPI + "Registry", ROOT, SPI + "Accessible", "GetChildren", None, None, 0, -1)
        return [name for name, _ in asked.unpack()[0]].count(listener.name) == 1

    checks.that(wait_until(is_listed), "the application isn't in the new registry, or twice")
    checks.that(goes_on(running, 2), "after another registry it doesn't go on")
    running.say("quit")
    listener.close()
    checks.that(running.end() == 0, "after another registry it doesn't end well")


# ---- what clients ask

BAD = [
    (1, "GetChildAtIndex", "Accessible", "(s)", ("x",)),
    (1, "GetRole", "Accessible", "(i)", (1,)),
    (1, "GetExtents", "Component", None, None),
    (3, "GetText", "Text", "(i)", (1,)),
    (1, "GetMatches", "Collection", "(i)", (1,)),
    (1, "DoAction", "Action", "(u)", (0,)),
]
MISSING = [("Accessible", "GetNothing"), ("Nothing", "GetRole"), ("Application", "GetLocale"), ("Text", "GetNSelections2")]
PATHS = [NODES + it for it in ("0/999", "7/1", "0/18446744073709551616", "4294967296/1", "0/1/2", "x/1", "0", "0x1/1", "0/1_", "0/_1")]


def error_of(call):
    """The name of the error that a call raises, or None."""
    try:
        call()
    except GLib.Error as error:
        return Gio.DBusError.get_remote_error(error) or str(error)
    return None


def wrong_calls(checks, listener):
    """What isn't there, or is of another type, is refused by name, and all else goes on."""
    button = NODES + "0/1"
    for node, member, interface, types, values in BAD:
        given = GLib.Variant(types, values) if types else None
        error = error_of(lambda: listener.call(f"{NODES}0/{node}", SPI + interface, member, given))
        checks.that(error == "org.freedesktop.DBus.Error.InvalidArgs", f"{member} with {types}: {error}")
    for interface, member in MISSING:
        error = error_of(lambda: listener.call(button, SPI + interface, member))
        checks.that(
            error in [f"org.freedesktop.DBus.Error.Unknown{it}" for it in ("Method", "Interface")], f"{interface}.{member}: {error}"
        )
    for path in PATHS:
        error = error_of(lambda: listener.call(path, SPI + "Accessible", "GetRole"))
        checks.that(error == "org.freedesktop.DBus.Error.UnknownObject", f"{path}: {error}")
    for name, told in (("Nothing", "UnknownProperty"), ("Name", None)):
        error = error_of(lambda: listener.get(button, "Accessible", name))
        checks.that(error == (told and f"org.freedesktop.DBus.Error.{told}"), f"the property {name}: {error}")
    for value, told in ((GLib.Variant("s", "much"), "InvalidArgs"), (GLib.Variant("d", 3), None)):
        given = GLib.Variant("(ssv)", (SPI + "Value", "CurrentValue", value))
        error = error_of(lambda: listener.call(NODES + "0/2", "org.freedesktop.DBus.Properties", "Set", given))
        checks.that(error == (told and f"org.freedesktop.DBus.Error.{told}"), f"the value {value}: {error}")


NUMBERS = [0, 1, 2, 5, 7, 8, -1, -2, 2**31 - 1, -(2**31), 1000]
TAKING = [
    ("Accessible", "GetChildAtIndex", "i"),
    ("Component", "GetAccessibleAtPoint", "iiu"),
    ("Component", "Contains", "iiu"),
    ("Component", "GetExtents", "u"),
    ("Action", "GetName", "i"),
    ("Action", "DoAction", "i"),
    ("Text", "GetText", "ii"),
    ("Text", "GetStringAtOffset", "iu"),
    ("Text", "GetTextAtOffset", "iu"),
    ("Text", "GetTextBeforeOffset", "iu"),
    ("Text", "GetTextAfterOffset", "iu"),
    ("Text", "GetCharacterAtOffset", "i"),
    ("Text", "GetSelection", "i"),
    ("Text", "SetCaretOffset", "i"),
    ("Text", "SetSelection", "iii"),
    ("Text", "AddSelection", "ii"),
    ("Text", "RemoveSelection", "i"),
    ("Text", "GetCharacterExtents", "iu"),
    ("Text", "GetRangeExtents", "iiu"),
    ("Text", "GetOffsetAtPoint", "iiu"),
    ("Text", "GetAttributes", "i"),
    ("Text", "GetAttributeRun", "ib"),
    ("Selection", "GetSelectedChild", "i"),
    ("Selection", "IsChildSelected", "i"),
    ("Selection", "SelectChild", "i"),
    ("Selection", "DeselectChild", "i"),
    ("Selection", "DeselectSelectedChild", "i"),
    ("Hyperlink", "GetURI", "i"),
    ("Hypertext", "GetLink", "i"),
    ("Hypertext", "GetLinkIndex", "i"),
    ("Table", "GetAccessibleAt", "ii"),
    ("Table", "GetIndexAt", "ii"),
    ("Table", "GetRowAtIndex", "i"),
    ("Table", "GetColumnAtIndex", "i"),
    ("Table", "GetRowDescription", "i"),
    ("Table", "GetRowExtentAt", "ii"),
    ("Table", "GetColumnExtentAt", "ii"),
    ("Table", "GetRowHeader", "i"),
    ("Table", "GetColumnHeader", "i"),
]


def random_calls(checks, listener, ids, count=1500, seed=1):
    """Numbers of all sizes to all calls and all nodes: each is answered, by a value or a named error."""
    chance = random.Random(seed)
    for _ in range(count):
        interface, member, types = chance.choice(TAKING)
        values = [
            chance.choice(NUMBERS) if it == "i" else chance.choice([0, 1, 2, 3, 9, 2**32 - 1]) if it == "u" else True for it in types
        ]
        path = NODES + chance.choice(ids)
        error = error_of(lambda: listener.call(path, SPI + interface, member, GLib.Variant(f"({types})", values)))
        if not checks.that(
            error is None or "Error.Unknown" in error or "InvalidArgs" in error, f"{path} {interface}.{member}{values}: {error}"
        ):
            return


def asked_of(checks, program):
    """A client that asks wrongly, for what is gone, or for something to be done."""
    gone = 'update root focus=1\nnode 0 Window label="Small" children=1,2,3 bounds=0,0,6400,6400\nend\n'
    running = start(program, "Asked", SMALL + gone)
    found = application("Asked")
    listener = Listener(found.app.bus_name)
    wrong_calls(checks, listener)
    random_calls(checks, listener, ["0/0", "0/1", "0/2", "0/3", "0/30", "0/4", "0/40", "root"])
    running.say("counts")
    running.asked.clear()
    listener.call(NODES + "0/1", SPI + "Action", "DoAction", GLib.Variant("(i)", (0,)))
    listener.call(
        NODES + "0/2",
        "org.freedesktop.DBus.Properties",
        "Set",
        GLib.Variant("(ssv)", (SPI + "Value", "CurrentValue", GLib.Variant("d", 3.5))),
    )
    listener.call(NODES + "0/3", SPI + "Text", "SetSelection", GLib.Variant("(iii)", (0, 2, 6)))
    listener.call(NODES + "0/4", SPI + "Selection", "SelectChild", GLib.Variant("(i)", (1,)))
    item = found.get_child_at_index(0).get_child_at_index(3).get_child_at_index(0)
    checks.that(item.get_name() == "First" and goes_on(running, 2), "it doesn't go on")
    asked = ["asked Click 0:1", "asked SetValue 0:2 3.5", "asked SelectText 0:3 30:2,30:6", "asked Click 0:41"]
    checks.that(running.asked == asked, f"asked to do {running.asked}")
    error = error_of(lambda: listener.call(NODES + "0/40", SPI + "Accessible", "GetRole"))
    checks.that(error == "org.freedesktop.DBus.Error.UnknownObject", f"a node that is gone: {error}")
    checks.that(any(it[0] == NODES + "0/4" and it[3] == "defunct" for it in listener.heard()), "no signal that a node is gone")
    item.clear_cache()
    checks.that(
        item.get_state_set().is_empty() or "defunct" in [it.value_nick for it in item.get_state_set().get_states()],
        "a node that is gone has states",
    )
    running.say("quit")
    listener.close()
    checks.that(running.end() == 0, "after wrong calls it doesn't end well")


def asked_of_page(checks, program):
    """The same of a page, whose text is marks, and of a table in it."""
    running = start(program, "Page", PAGE)
    listener = Listener(application("Page").app.bus_name)
    random_calls(checks, listener, ["0/0", "0/1", "0/2", "0/3", "0/20", "0/30", "0/4", "0/5", "0/51", "0/60", "root"], seed=2)
    checks.that(goes_on(running), "after wrong calls of a page it doesn't go on")
    running.say("quit")
    listener.close()
    checks.that(running.end() == 0, "after wrong calls of a page it doesn't end well")


# ---- several clients

STUCK = """
import os, signal, sys
sys.path[:0] = sys.argv[2:]
from session import Listener, ROOT, SPI
listener = Listener(sys.argv[1])
for _ in range(3000):
    listener.bus.call(listener.name, ROOT, SPI + "Accessible", "GetAttributes", None, None, 0, -1, None, None)
listener.bus.flush_sync()
print("stuck", flush=True)
os.kill(os.getpid(), signal.SIGSTOP)
"""


def several_clients(checks, program):
    """Two clients read while the application updates as fast as it can, and a third one asks and never reads."""
    running = start(program, "Several", SMALL + "".join(STEP.format(it) for it in range(MANY)))
    found = application("Several")
    stuck = subprocess.Popen([sys.executable, "-c", STUCK, found.app.bus_name, *sys.path], stdout=subprocess.PIPE, text=True)
    stuck.stdout.readline()
    wrong, counts, is_over = [], [0, 0], threading.Event()

    def read(number):
        listener = Listener(found.app.bus_name)
        while not is_over.is_set():
            children = [it for _, it in listener.call(NODES + "0/0", SPI + "Accessible", "GetChildren")[0]]
            name = listener.get(NODES + "0/1", "Accessible", "Name")
            if children != [path_of((0, it)) for it in (1, 2, 3, 4)] or not re.fullmatch(r"Go( \d+)?", name):
                wrong.append((children, name))
            counts[number] += 2
        listener.close()

    threads = [threading.Thread(target=read, args=(number,)) for number in (0, 1)]
    for it in threads:
        it.start()
    wait_until(lambda: min(counts) > 10)
    begun, before = time.monotonic(), list(counts)
    checks.that(goes_on(running, MANY), "it doesn't go on with three clients")
    checks.that(time.monotonic() - begun < LONGEST, f"{MANY} updates took {time.monotonic() - begun:.1f} s")
    is_over.set()
    for it in threads:
        it.join()
    both = [after - one for after, one in zip(counts, before)]
    checks.that(not wrong and min(both) > 0, f"two clients read {both} answers while it updated, of which were wrong {wrong[:2]}")
    stuck.kill()
    stuck.wait()
    running.say("quit")
    checks.that(running.end() == 0, "after a client that stopped it doesn't end well")


# ---- passwords


def passwords(checks, program):
    """Everything that goes over the bus while passwords are typed and all is read: no part of two letters of one is in it."""
    for whole in ("Zq7wXk", "zzzzzz"):
        lengths = lambda count: ",".join("1" * count)
        script = PASSWORDS.format(first=whole[0], shown=f"It is {whole}", whole=whole, lengths=lengths(len(whole)))
        script += "host on\n" + "".join(TYPED.format(typed=whole[:it], count=it, lengths=lengths(it)) for it in range(2, len(whole) + 1))
        record = tempfile.TemporaryFile()
        monitor = subprocess.Popen(["dbus-monitor", "--binary", "--address", bus_address()], stdout=record)
        time.sleep(1)
        running = start(program, f"Password {whole[0]}", script)
        found = application(f"Password {whole[0]}")
        listener = Listener(found.app.bus_name)
        play = Play()
        for line in script.splitlines():
            play.line(line.encode())
        while "end of the script" not in running.say():
            for id in play.world.nodes:
                for interface in ("Accessible", "Text", "Value", "Component", "Action"):
                    error_of(
                        lambda: listener.call(
                            path_of(id), "org.freedesktop.DBus.Properties", "GetAll", GLib.Variant("(s)", (SPI + interface,))
                        )
                    )
                for call, types, values in (
                    ("GetText", "(ii)", (0, -1)),
                    ("GetStringAtOffset", "(iu)", (1, 3)),
                    ("GetTextAtOffset", "(iu)", (0, 0)),
                ):
                    error_of(lambda: listener.call(path_of(id), SPI + "Text", call, GLib.Variant(types, values)))
        signals = [it for it in listener.heard() if it[2] == "TextChanged"]
        checks.that(len(signals) >= len(whole) - 1 and all(set(it[6]) == {"\u2022"} for it in signals), f"typing is told as {signals}")
        checks.that(
            listener.call(path_of((0, 1)), SPI + "Text", "GetText", GLib.Variant("(ii)", (0, -1)))[0] == "\u2022" * len(whole),
            "a password isn't shown as bullets",
        )
        running.say("quit")
        running.end()
        listener.close()
        time.sleep(0.5)
        monitor.terminate()
        monitor.wait()
        record.seek(0)
        carried = record.read()
        shown = [part for part in (whole[it : it + 2] for it in range(len(whole) - 1)) if part.encode() in carried]
        checks.that(len(carried) > 20000 and "\u2022\u2022".encode() in carried, f"only {len(carried)} bytes went over the bus")
        checks.that(not shown, f"these parts of a password went over the bus: {shown}")


def check(checks, program):
    """All of it."""
    for it in (without_bus, without_registry, registry_again, asked_of, asked_of_page, several_clients, passwords):
        before = checks.passed
        it(checks, program)
        print(f"{it.__name__}: {checks.passed - before} passed", flush=True)
