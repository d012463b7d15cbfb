"""What the screen reader Orca says of pages and applications, beside what it says of their recordings on the bus, by the same keys.

    checks/atspi --only originals

A page is shown by Chromium, an application runs, and keys are pressed while Orca reads it and a recorder of tools/ writes it as a
script. Then the adapter has that script on the bus, and for each key it tells the same key and carries out what was recorded in that
step. What Orca says in each step is compared, saying by saying: SUBJECTS has the keys. It prints each saying that differs, and a table.

What is said while a page is loaded depends on when which event comes, and decides what is said of the first key: so of a page that key
is counted apart.
"""

import os
import signal
import subprocess
import sys
import tempfile
import time
from difflib import SequenceMatcher
from typing import NamedTuple

import sayings
from session import LONGEST, TOP, Checks, Program, application, commands, wait_until

PAGES = os.path.join(os.path.dirname(os.path.abspath(__file__)), "originals")
ENVIRONMENT = {"NO_AT_BRIDGE": "0", "GTK_MODULES": "gail:atk-bridge", "GDK_BACKEND": "x11", "GNOME_ACCESSIBILITY": "1"}
# Seconds after which a recorder has written what a key led to.
WRITTEN = 2.0


class Subject(NamedTuple):
    """What is heard: a page, or the command of an application and its name on the bus; and the keys of the steps."""

    page: str
    command: list
    name: str
    title: str
    keys: str


FORM = "Tab Tab Tab Tab a b Tab 2 Tab Tab Tab Tab Tab space Tab Tab Down Tab Up Tab Right Tab Down Tab space Tab h h b x c e"
CHAT = "Tab h i Tab space y Tab h h Down Down Down Up b e"
EDITOR = "Tab space Tab Tab End x BackSpace Down Right Left Down Tab Down Down End y Tab End BackSpace Tab h"
GRID = "Tab Tab Right Right Down Down Left Up Left Tab t h"
MOUSEPAD = "t h e Return x y Home Right Right Up End BackSpace F10 Down Down Right Escape Escape"
FACTORY = "Tab Tab a b Tab Tab space Tab Tab space space Tab Tab Tab Tab Right Tab Tab Tab"
SUBJECTS = {
    "form": Subject("form.html", [], "Chromium", "Order a ticket", FORM),
    "chat": Subject("chat.html", [], "Chromium", "Chat with Mia", CHAT),
    "editor": Subject("editor.html", [], "Chromium", "letter - Writer", EDITOR),
    "grid": Subject("grid.html", [], "Chromium", "Stock", GRID),
    "mousepad": Subject("", ["mousepad", "--disable-server"], "mousepad", "", MOUSEPAD),
    "widget-factory": Subject("", ["gtk3-widget-factory"], "gtk3-widget-factory", "", FACTORY),
}
# Chromium without the bars around the page.
BROWSER = '#!/bin/sh\nexec chromium --test-type --disable-features=Translate --app=data:text/html, "$@"\n'


class Original:
    """A page or an application that runs, is recorded and gets keys."""

    def __init__(self, subject, folder):
        self.subject = subject
        self.path = os.path.join(folder, "script")
        os.makedirs(os.path.join(folder, "home"), exist_ok=True)
        environment = {**os.environ, **ENVIRONMENT, "HOME": os.path.join(folder, "home")}
        self.running = []
        tools = os.path.join(TOP, "tools")
        if subject.page:
            browser = os.path.join(folder, "browser")
            with open(browser, "w", encoding="utf-8", opener=lambda path, flags: os.open(path, flags, 0o755)) as file:
                file.write(BROWSER)
            words = [f"{tools}/record-chromium", "--browser", browser, "--window", "--every", "0.5", "--size", "900x800"]
            words.append(os.path.join(PAGES, subject.page))
        else:
            self.start(subject.command, environment, subprocess.DEVNULL)
            words = [f"{tools}/record-atspi", subject.name, "--wait", "60"]
        with open(self.path, "w", encoding="utf-8") as file:
            self.recorder = self.start(words, environment, file)
        wait_until(self.commands, 3 * LONGEST)

    def start(self, words, environment, output):
        how = {"stdin": subprocess.DEVNULL, "stdout": output, "stderr": subprocess.DEVNULL, "env": environment}
        self.running.append(subprocess.Popen(words, start_new_session=True, **how))
        return self.running[-1]

    def commands(self):
        """What was recorded so far, command by command."""
        with open(self.path, encoding="utf-8") as file:
            return commands(file.read())

    def press(self, key):
        subprocess.run(["xdotool", "key", key], check=True)

    def end(self):
        self.recorder.send_signal(signal.SIGINT)
        for it in reversed(self.running):
            try:
                it.wait(LONGEST if it is self.recorder else 0)
            except subprocess.TimeoutExpired:
                pass
            try:
                os.killpg(it.pid, signal.SIGKILL)
            except ProcessLookupError:
                pass
            it.wait()


def hear_original(subject, folder):
    """What is said in each step, and the commands that were recorded in it."""
    orca = sayings.Orca()
    original = Original(subject, folder)
    said, counts = [], []
    for key in ["", *subject.keys.split()]:
        counts.append(len(original.commands()))
        if key:
            original.press(key)
        said.append(orca.hear())
        time.sleep(WRITTEN)
        wait_until(sayings.is_at_rest)
        said[-1] += orca.hear()
    counts = [*counts[1:], len(original.commands())]
    all_of = original.commands()
    original.end()
    orca.end()
    starts = [0, *counts]
    return said, [all_of[one:other] for one, other in zip(starts, counts)]


def hear_recording(subject, program, recorded):
    """What is said of the recording in each step."""
    orca = sayings.Orca()
    options = ["--name", subject.name, *(["--window", subject.title] if subject.page else [])]
    running = Program(program, "".join(it for step in recorded for it in step), *options)
    application(subject.name)
    for _ in recorded[0][1:]:
        running.say()
    said = [orca.hear()]
    for key, step in zip(subject.keys.split(), recorded[1:]):
        sayings.press(running, key)
        for _ in step:
            running.say()
        said.append(orca.hear())
    running.say("quit")
    running.end()
    orca.end()
    return said


def compare_step(about, one, other):
    """Prints what is said in a step, with `-` what is said of the original alone, with `+` of the recording alone, and with `=` where
    both say the same words in other pieces. Gives how many sayings there are, and how many of these are other pieces, and other words."""
    pieces = differ = 0
    print(about, flush=True)
    pair = [[tuple(words([it])) for it in side] for side in (one, other)]
    for kind, a, b, c, d in SequenceMatcher(None, *pair, autojunk=False).get_opcodes():
        marks = "      ", "      "
        if kind != "equal":
            is_same = words(one[a:b]) == words(other[c:d])
            pieces += max(b - a, d - c) if is_same else 0
            differ += 0 if is_same else max(b - a, d - c)
            marks = ("    = ", None) if is_same else ("    - ", "    + ")
        print(*(marks[0] + it for it in one[a:b]), *(marks[1] + it for it in other[c:d] if marks[1] == "    + "), sep="\n", flush=True)
    return max(len(one), len(other)), pieces, differ


def compare(name, subject, original, recording):
    """Compares each step. Gives how many sayings there are, how many of these are other pieces, and other words; and of the first key of a
    page, which isn't counted in these, how many there are and how many are other words."""
    keys = subject.keys.split()
    counts = [compare_step(f"{name}: {key}", one, other) for key, one, other in zip(keys, original, recording)]
    first = counts.pop(0) if subject.page else (0, 0, 0)
    return (*map(sum, zip(*counts)), first[0], first[2])


def words(said):
    """The words of sayings, without the marks at which a voice pauses."""
    return " ".join(said).replace(".", " ").split()


def check(checks, program, names=()):
    """Hears each subject and its recording. At most a tenth of what is said may differ in its words."""
    manager = subprocess.Popen(["openbox"], stdout=subprocess.DEVNULL, stderr=subprocess.DEVNULL)
    rows = []
    for name in names or SUBJECTS:
        subject = SUBJECTS[name]
        with tempfile.TemporaryDirectory(ignore_cleanup_errors=True) as folder:
            original, recorded = hear_original(subject, folder)
            recording = hear_recording(subject, program, recorded)
        # (what is said while a page is loaded, or a window comes, is no step)
        rows.append((name, *compare(name, subject, original[1:], recording[1:])))
    manager.terminate()
    manager.wait()
    print("| of | sayings | in other pieces | in other words | of the first key of a page | in other words |\n|---|---|---|---|---|---|")
    all_of = ("all", *map(sum, zip(*(it[1:] for it in rows))))
    for row in [*rows, all_of]:
        print("| {} | {} | {} | {} | {} | {} |".format(*row), flush=True)
    checks.that(10 * all_of[3] <= all_of[1], f"of {all_of[1]} sayings {all_of[3]} differ")


if __name__ == "__main__":
    check(Checks(), sys.argv[1], sys.argv[2:])
