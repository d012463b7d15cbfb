"""Records applications and pages live, while keys are pressed, on a display and a bus of their own.

Each is started, recorded, and driven by xdotool. What the recorder writes goes to `atree`, which has to accept every update, and to
`speak`, whose lines are timed. At the end a fresh reading is compared with what was written, a picture of the display is taken, and
`find` has to find the controls that a person sees on it, each where it is: recorded/NAME.seen.
"""

import os
import re
import shutil
import signal
import statistics
import subprocess
import tempfile
import threading
import time
from typing import NamedTuple

from replays.kept import DATA, seen_controls
from runs.program import HERE

TOP = os.path.join(HERE, "..")
RECORDERS = os.path.join(TOP, "tools")
NEEDED = ("xvfb-run", "dbus-run-session", "xdotool", "openbox", "import")
WIDTH, HEIGHT = 1280, 900
CORNER = (100, 60)
PAGES = os.path.join(DATA, "pages")
# A step is done so many seconds after the one before.
PAUSE = 0.7


class Subject(NamedTuple):
    """What is recorded: the package of Debian that has it, its command, its name for the recorder, and the steps; besides, the recorder's
    further arguments, and seconds until it has started."""

    package: str
    command: str
    name: str
    steps: list
    more: str = ""
    start: float = 4


def keys(words):
    return [f"key {word}" for word in words.split()]


ORDER = f"file://{PAGES}/order.html"
FORM = "zenity --forms --text Who --add-entry User --add-password Code --add-combo Place --combo-values Here|There"
CHROMIUM = "chromium --no-sandbox --no-first-run --force-renderer-accessibility --user-data-dir=PROFILE"
WRITING = ["type The quick brown fox", "key Return", "type second line", *keys("Home shift+End Up ctrl+Left alt+f Down Down Escape")]
ORDERING = ["type Ada", "key Tab", "type secret", *keys("Tab space Tab Tab Down Tab"), "type x", *keys("Tab Right Tab Return")]
FACTORY = [*keys("Tab Tab"), "type Ada", *keys("Tab Tab space Tab Tab space space Tab Tab Tab Tab Right Tab Tab Tab shift+Tab")]
CALCULATING = ["type 12*3", *keys("Return Tab Tab Tab space Tab Tab ctrl+question Escape")]
ENTERING = ["type ada", "key Tab", "type secret", *keys("Tab space Down Return Tab Tab")]
SEARCHING = ["key ctrl+f", "type fox"]
SUBJECTS = {
    "widget-factory": Subject("gtk-3-examples", "gtk3-widget-factory", "gtk3-widget-factory", FACTORY),
    "mousepad": Subject("mousepad", "mousepad --disable-server", "mousepad", WRITING + SEARCHING),
    "zenity": Subject("zenity", FORM, "zenity", ENTERING),
    "calculator": Subject("gnome-calculator", "gnome-calculator", "gnome-calculator", CALCULATING),
    "featherpad": Subject("featherpad", "featherpad --standalone", "featherpad", WRITING + keys("Escape ctrl+f Escape ctrl+End")),
    "qt6ct": Subject("qt6ct", "qt6ct", "qt6ct", keys("Tab Tab Tab Down Tab Tab space Tab Tab Right Right Tab Tab shift+Tab")),
    "chromium": Subject("chromium", f"{CHROMIUM} {ORDER}", "chromium", ORDERING, start=8),
    "firefox": Subject("firefox-esr", f"firefox-esr --no-remote --profile PROFILE {ORDER}", "firefox", ORDERING, start=10),
}
# So that Firefox shows no page of its own beside.
PREFERENCES = {"browser.aboutwelcome.enabled": "false", "datareporting.policy.dataSubmissionEnabled": "false"}
# By what toolkits know, when they are started, that they are read.
ENVIRONMENT = dict(LC_ALL="C.UTF-8", QT_LINUX_ACCESSIBILITY_ALWAYS_ON="1", QT_ACCESSIBILITY="1", GNOME_ACCESSIBILITY="1")
ENVIRONMENT.update(GTK_MODULES="gail:atk-bridge", NO_AT_BRIDGE="0", GDK_BACKEND="x11", QT_QPA_PLATFORM="xcb", QT_QPA_PLATFORMTHEME="qt6ct")


class Result(NamedTuple):
    """What came of a recording."""

    name: str
    package: str
    nodes: int
    first: int
    updates: int
    refused: int
    check: str
    delays: list
    found: int
    sought: int

    def row(self):
        delays = f"{statistics.median(self.delays):.0f} ({max(self.delays):.0f}), {len(self.delays)}" if self.delays else "-"
        cells = [self.name, self.package, self.nodes, self.first, self.updates, self.refused, self.check, delays]
        return f"| {' | '.join(map(str, cells))} | {self.found} of {self.sought} |"


HEAD = "| recording | package | nodes first | ms for them | updates | refused | a fresh reading | key to speech, ms: median (most), keys "
HEAD += "| found |"


class Session:
    """One recording, in a folder of its own."""

    def __init__(self, name, programs, folder):
        self.name, self.subject, self.programs = name, SUBJECTS[name], programs
        self.folder = os.path.join(folder, name)
        os.makedirs(self.folder, exist_ok=True)
        self.script, self.said = os.path.join(self.folder, "script"), []

    def path(self, name):
        return os.path.join(self.folder, name)

    def start(self):
        """Starts the window manager and the application."""
        home = self.path("home")
        shutil.rmtree(home, ignore_errors=True)
        os.makedirs(home)
        with open(os.path.join(home, "user.js"), "w", encoding="utf-8") as file:
            file.writelines(f'user_pref("{name}", {value});\n' for name, value in PREFERENCES.items())
        os.environ.update(ENVIRONMENT, HOME=home)
        how = {"stdin": subprocess.DEVNULL, "stdout": subprocess.DEVNULL, "stderr": open(self.path("application.log"), "w")}
        command = [word.replace("PROFILE", home) for word in self.subject.command.split()]
        self.running = [subprocess.Popen(words, start_new_session=True, **how) for words in (["openbox"], command)]
        time.sleep(self.subject.start)
        # (a window manager may put it elsewhere each time, and a person has seen it here)
        move = ["xdotool", "getactivewindow", "windowmove", *map(str, CORNER)]
        for _ in range(40):
            if subprocess.run(move, check=False, stderr=subprocess.DEVNULL).returncode == 0:
                break
            time.sleep(0.5)
        time.sleep(1)

    def record(self):
        """Starts the recorder, with its script to a file and to `speak`."""
        words = [os.path.join(RECORDERS, "record-atspi"), self.subject.name, "--titles", "--check", "--times", *self.subject.more.split()]
        words += ["--keep", self.path("kept")]
        self.recorder = subprocess.Popen(words, stdout=subprocess.PIPE, stderr=open(self.path("errors"), "w"))
        tee = subprocess.Popen(["tee", self.script], stdin=self.recorder.stdout, stdout=subprocess.PIPE)
        self.speak = subprocess.Popen([self.programs["speak"]], stdin=tee.stdout, stdout=subprocess.PIPE, stderr=subprocess.DEVNULL)
        self.hearing = threading.Thread(target=self.hear, daemon=True)
        self.hearing.start()
        for _ in range(300):
            time.sleep(0.1)
            if os.path.getsize(self.path("errors")) and "questions" in self.errors():
                break
        time.sleep(1)

    def hear(self):
        for line in self.speak.stdout:
            self.said.append((time.monotonic(), line.decode(errors="replace").rstrip("\n")))

    def errors(self):
        with open(self.path("errors"), encoding="utf-8") as file:
            return file.read()

    def drive(self):
        """Does the steps: the time of each, with what it is."""
        steps = []
        for step in self.subject.steps:
            word, _, rest = step.partition(" ")
            for one in rest if word == "type" else [rest]:
                steps.append((time.monotonic(), step if word == "key" else f"type {one}"))
                typed = ["type", one] if word == "type" else ["key", one]
                subprocess.run(["xdotool", *typed], check=False, stderr=subprocess.DEVNULL)
                time.sleep(0.15 if word == "type" else PAUSE)
        time.sleep(2)
        return steps

    def end(self):
        subprocess.run(["import", "-window", "root", self.path("display.png")], check=False)
        self.recorder.send_signal(signal.SIGINT)
        self.recorder.wait(60)
        self.speak.wait(60)
        self.hearing.join(10)
        for one in self.running:
            try:
                os.killpg(one.pid, signal.SIGKILL)
            except ProcessLookupError:
                pass
            one.wait()

    def result(self, steps):
        """What came of it, with what was said after each step in the file `said`."""
        errors, delays = self.errors(), []
        with open(self.path("said"), "w", encoding="utf-8") as file:
            for (at, step), (end, _) in zip([(0, "start"), *steps], [*steps, (float("inf"), "")]):
                said = [(when, line) for when, line in self.said if at <= when < end]
                delays += [1000 * (said[0][0] - at)] if said and at else []
                print(f"[{step}]", *(f"    {line}" for _, line in said), sep="\n", file=file)
        with open(self.script, "rb") as file:
            script = file.read()
        replies = subprocess.run([self.programs["atree"]], input=script, capture_output=True, check=False)
        refused = replies.stdout.count(b"\nrefused ") + (replies.returncode != 0)
        nodes, first = re.search(r": (\d+) nodes, \d+ questions, (\d+) ms", errors).groups()
        check = re.search(r"check: (.*)", errors)
        found, sought = self.find(script)
        updates = len(re.findall(rb"^update ", script, re.M))
        counts = updates, refused, check[1] if check else "none", delays, found, sought
        return Result(self.name, self.subject.package, nodes, first, *counts)

    def find(self, script):
        """How many of the controls that a person sees `find` finds, each where it is."""
        found, controls = 0, seen_controls(self.name)
        for control in controls:
            ran = subprocess.run([self.programs["find"], *control.words()], input=script, capture_output=True, check=False)
            fault = control.fault(ran.stdout.decode(errors="replace"))
            if fault:
                print(f"{self.name}: {control}: {fault}")
            found += not fault
        return found, len(controls)


def run_one(name, programs, folder):
    """Records one, on the display and the bus that are there."""
    session = Session(name, programs, folder)
    session.start()
    try:
        session.record()
        steps = session.drive()
    finally:
        session.end()
    return session.result(steps)


def main(names, programs, folder):
    """Records those that are named, or all: each in a run of its own, with a display and a bus."""
    missing = [tool for tool in NEEDED if not shutil.which(tool)]
    missing += [subject.package for name, subject in SUBJECTS.items() if name in names and not shutil.which(subject.command.split()[0])]
    if missing:
        print(f"checks/recorders: not there: {', '.join(missing)} (docs/RECORD.md names the packages)")
        return 1
    folder = folder or tempfile.mkdtemp(prefix="recorded-")
    print(f"what was recorded is in {folder}", HEAD, "|---" * 9 + "|", sep="\n", flush=True)
    status = 0
    for name in names or SUBJECTS:
        runtime = tempfile.mkdtemp()
        words = ["xvfb-run", "-a", "-s", f"-screen 0 {WIDTH}x{HEIGHT}x24", "dbus-run-session", "--"]
        words += [os.path.join(TOP, "checks", "recorders"), "--here", name, folder, *(f"{one}={path}" for one, path in programs.items())]
        environment = {**os.environ, "XDG_RUNTIME_DIR": runtime}
        ran = subprocess.run(words, env=environment, capture_output=True, text=True, errors="replace", check=False)
        rows = [line for line in ran.stdout.splitlines() if line.startswith(("| ", f"{name}: "))]
        print(*(rows or [f"{name}: {(ran.stdout + ran.stderr)[-600:]}"]), sep="\n", flush=True)
        status |= ran.returncode
        shutil.rmtree(runtime, ignore_errors=True)
    return status
