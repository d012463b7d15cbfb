"""How long clients take, and how large the adapter is: prints tables of docs/ADAPTER.

    checks/atspi --only times

A page is read whole by pyatspi, as often from canned.c, which gives the same answers without computing anything: what the first takes
longer is the adapter's and the library's. From an update to its first and its last signal in another process, and to what Orca says.
"""

import os
import statistics
import subprocess
import tempfile
import time

import gi
import pyatspi

import sayings
from session import TOP, Listener, Program, application, bus_address, commands, wait_until

gi.require_version("Atspi", "2.0")
from gi.repository import Atspi, GLib

CANNED = os.path.join(os.path.dirname(os.path.abspath(__file__)), "canned.c")
# What a section of the page shows: 13 nodes besides a run, which is none on the bus.
SECTION = """node {0}0 Other(353) label="Part {0}" children={0}1,{0}2,{0}3,{0}4,{0}5 bounds=0,{1},640,{2}
node {0}1 Other(328) label="Part {0}" level=2 children={0}11 bounds=0,{1},640,{2}
node {0}11 Label value="Part {0}" children={0}12 bounds=0,{1},640,{2}
node {0}12 TextRun value="Part {0}" bounds=0,{1},640,{2}
node {0}2 Paragraph children={0}21,{0}22,{0}23 bounds=0,{1},640,{2}
node {0}21 Label value="Words that come before " children={0}24 bounds=0,{1},640,{2}
node {0}24 TextRun value="Words that come before " bounds=0,{1},640,{2}
node {0}22 Link label="a link" children={0}25 url="https://example.org/{0}" actions=Click,Focus bounds=0,{1},640,{2}
node {0}25 Label value="a link" bounds=0,{1},640,{2}
node {0}23 Label value=", and after it." bounds=0,{1},640,{2}
node {0}3 CheckBox label="Choose {0}" toggled=false actions=Click,Focus bounds=0,{1},640,{2}
node {0}4 TextInput label="Field {0}" children={0}41 actions=Focus bounds=0,{1},640,{2}
node {0}41 TextRun value="typed" chars=1,1,1,1,1 words=0 bounds=0,{1},640,{2}
node {0}5 Button label="Send {0}" actions=Click,Focus children={0}51,{0}52 bounds=0,{1},640,{2}
node {0}51 Label value="Send" bounds=0,{1},640,{2}
node {0}52 Image label="a letter" bounds=0,{1},640,{2}
"""
# (each number of a section has three digits, so that no two nodes have the same)
SECTIONS, READS = range(100, 370), 5


def page():
    """A page, and an update that gives each of its sections another name and other fields."""
    below = ",".join(f"{it}0" for it in SECTIONS)
    parts = [SECTION.format(it, 640 * it, 640 * it + 600) for it in SECTIONS]
    top = f'node 0 RootWebArea label="Page" children={below} bounds=0,0,64000,{640 * SECTIONS.stop}\n'
    other = "".join(parts).replace("Part", "Section").replace("toggled=false", "toggled=true")
    return f"update root focus=0 root=0\n{top}{''.join(parts)}end\nhost on\n", f"update root focus=0\n{other}end\n"


def read(node):
    """Reads all that is shown at a node: how many objects these are."""
    node.get_role_name(), node.get_name(), node.get_description(), node.get_state_set().get_states()
    if "Component" in node.get_interfaces():
        tuple(node.queryComponent().getExtents(pyatspi.WINDOW_COORDS))
    return 1 + sum(read(node.get_child_at_index(it)) for it in range(node.get_child_count()))


def seconds(root):
    begun = time.monotonic()
    count = read(root)
    return count, time.monotonic() - begun


def found_by(name):
    """The application with a name on the bus, of which the client keeps nothing."""

    def find():
        desktop = pyatspi.Registry.getDesktop(0)
        desktop.clear_cache()
        all_of = [desktop.get_child_at_index(it) for it in range(desktop.get_child_count())]
        return next((it for it in all_of if it is not None and it.app.bus_name == name), None)

    found = wait_until(find)
    found.set_cache_mask(Atspi.Cache.NONE)
    return found


def memory(process):
    """The memory of a process in kB."""
    with open(f"/proc/{process.pid}/status", encoding="ascii") as file:
        return next(int(line.split()[1]) for line in file if line.startswith("VmRSS"))


def whole_reads(checks, program, folder):
    """Reads the page from the adapter and from canned answers, in turns."""
    build = ["cc", "-std=c11", "-O2", CANNED, "-o", f"{folder}/canned"]
    flags = subprocess.run(["pkg-config", "--cflags", "--libs", "gio-2.0"], stdout=subprocess.PIPE, text=True, check=True).stdout.split()
    subprocess.run([*build, *flags], check=True)
    small = Program(program, "update root focus=0 root=0\nnode 0 Window\nend\n", "--name", "Small", "--units", "64")
    application("Small")
    running = Program(program, "".join(page()), "--name", "Times", "--window", "Times")
    root = application("Times")
    sizes = memory(small.process), memory(running.process)
    with open(f"{folder}/record", "wb") as record:
        monitor = subprocess.Popen(["dbus-monitor", "--binary", "--address", bus_address()], stdout=record)
        time.sleep(1)
        count, _ = seconds(root)
        time.sleep(1)
        monitor.terminate()
        monitor.wait()
    words = [f"{folder}/canned", f"{folder}/record", root.app.bus_name, bus_address()]
    canned = subprocess.Popen(words, stdin=subprocess.PIPE, stdout=subprocess.PIPE, text=True)
    name, answers = canned.stdout.readline().split()
    bare = found_by(name)
    pairs = [(seconds(root), seconds(bare)) for _ in range(READS)]
    checks.that(count > 13 * len(SECTIONS), f"only {count} objects were read")
    checks.that(all(one == other == count for (one, _), (other, _) in pairs), f"of {count} objects {pairs} were read")
    ratios = sorted(one / other for (_, one), (_, other) in pairs)
    print(f"{count} objects, {answers} kinds of requests; seconds of the adapter beside canned answers:")
    print(*(f"{one:.2f} / {other:.2f}" for (_, one), (_, other) in pairs), sep=", ", flush=True)
    print(f"ratio {ratios[0]:.2f} to {ratios[-1]:.2f}, median {statistics.median(ratios):.2f}", flush=True)
    checks.that(statistics.median(ratios) <= 1.3, f"a read takes {ratios} of that of canned answers")
    print(f"memory: {sizes[0]} kB with one node, {sizes[1]} kB with the page", flush=True)
    canned.stdin.close()
    canned.wait()
    for it in (small, running):
        it.say("quit")
        it.end()


class Timed(Listener):
    """A listener that notes when a signal is heard."""

    def __init__(self, name):
        self.times = []
        super().__init__(name)
        # (once a call is answered the bus knows what is listened to)
        self.heard()

    def hear(self, bus, sender, path, interface, member, values):
        if interface.startswith("org.a11y.atspi.Event."):
            self.times.append(time.monotonic())

    def step(self, running):
        """Carries out a step: how many signals are heard, and after how many ms the first and the last; None after the last step."""
        self.times.clear()
        line = running.say()[0]
        if not line.startswith("ok"):
            return (0, 0, 0) if line.startswith("refused") else None
        begun, count = float(line.split(" at ")[1].split(":")[0]), int(line.split(": ")[1].split()[0])
        context = GLib.MainContext.default()
        wait_until(lambda: [context.iteration(False) for _ in range(count)] and len(self.times) >= count, pause=0)
        return count, *((1000 * (it - begun) for it in (self.times[0], self.times[-1])) if count else (0, 0))


def update_to_event(checks, program):
    """From each update of the examples to its signals, and of one that changes a whole page."""
    sources = {"settings": ["--units", "1"], "editor": ["--units", "1"], "browser-form": ["--window", "Times"], "page": []}
    print("| of | updates with signals | first signal, ms: median, most | last signal, ms: median, most | most signals |")
    print("|---|---|---|---|---|")
    for name, options in sources.items():
        path = os.path.join(TOP, "examples", f"{name}.script")
        script = open(path, encoding="utf-8").read() if name != "page" else "".join(page())
        running = Program(program, script, "--name", f"Event {name}", *options)
        listener = Timed(application(f"Event {name}").app.bus_name)
        rows = [it for it in iter(lambda: listener.step(running), None) if it[0]]
        checks.that(rows, f"{name} has no signals")
        first, last = [it[1] for it in rows], [it[2] for it in rows]
        print(f"| {name} | {len(rows)} | {statistics.median(first):.1f}, {max(first):.1f} |", end=" ")
        print(f"{statistics.median(last):.1f}, {max(last):.1f} | {max(it[0] for it in rows)} |", flush=True)
        running.say("quit")
        running.end()
        listener.close()


def update_to_speech(checks, program):
    """From each update of an example to the first that Orca says of it."""
    orca = sayings.Orca()
    for name in ("settings", "editor"):
        with open(os.path.join(TOP, "examples", f"{name}.script"), encoding="utf-8") as file:
            running = Program(program, file.read(), "--name", f"Said {name}", "--units", "1")
        application(f"Said {name}")
        orca.hear()
        took = []
        while True:
            count = len(orca.spoken())
            line = running.say()[0]
            if line == "end of the script":
                break
            found = wait_until(lambda: len(orca.spoken()) > count and time.monotonic(), 1.5, 0.002)
            if found and " at " in line:
                took.append(1000 * (found - float(line.split(" at ")[1].split(":")[0])))
            orca.hear()
        checks.that(took, f"Orca says nothing of {name}")
        print(f"Orca, {name}: {len(took)} updates, its first word after {statistics.median(took):.0f} ms (median),", end=" ")
        print(f"{max(took):.0f} ms (most)", flush=True)
        running.say("quit")
        running.end()
    orca.end()


def check(checks, program):
    """All of it."""
    with tempfile.TemporaryDirectory() as folder:
        whole_reads(checks, program, folder)
    update_to_event(checks, program)
    update_to_speech(checks, program)
