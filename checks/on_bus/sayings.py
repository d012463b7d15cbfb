"""What the screen reader Orca says of a script on the bus, step by step, by its log of speech: compared with sayings worked out by hand.

`sayings/NAME.told` has the steps of examples/NAME.script. A line `> ..` says what is done: `next` is the script's next command, other
words are keys that are pressed in this order, and with `?` what is said isn't compared. Below it is what has to be said then; a line
`? ..` is left out where Orca is interrupted by the next event. What is said twice in a
row counts once: of a heading in browse mode Orca says both the heading and the text in it.
"""

import glob
import os
import pty
import re
import subprocess
import sys
import tempfile
import threading
import time
import tty

from session import LONGEST, SPI, TOP, Listener, Program, application, wait_until

HERE = os.path.join(os.path.dirname(os.path.abspath(__file__)), "sayings")
KEYS = {
    "Right": (0xFF53, 114),
    "Left": (0xFF51, 113),
    "Down": (0xFF54, 116),
    "Up": (0xFF52, 111),
    "Return": (0xFF0D, 36),
    "Tab": (0xFF09, 23),
}
KEYS |= {"BackSpace": (0xFF08, 22), "Delete": (0xFFFF, 119), "End": (0xFF57, 115), "Home": (0xFF50, 110), "space": (0x20, 65)}
KEYS |= {"F10": (0xFFC7, 76), "Escape": (0xFF1B, 9)}
CODES = dict(
    a=38, b=56, c=54, d=40, e=26, f=41, g=42, h=43, i=31, k=45, l=46, m=58, n=57, o=32, p=33, q=24, r=27, s=39, t=28, u=30, v=55, w=25, x=53
)
# Starts Orca without a voice, for which it would wait, and without the alarm that ends it where it takes over ten seconds to start.
START = "import runpy, shutil, sys; sys.modules['speechd'] = None; from orca import settings; settings.timeoutTime = 0"
START += "; sys.argv[0] = shutil.which('orca'); runpy.run_path(sys.argv[0], run_name='__main__')"
SPOKEN = re.compile(r"SPEECH OUTPUT: '(.*?)'(?:\[?\{'| \{|$)", re.M | re.S)
# Seconds in which nothing is logged after which a step is over, and the most that are waited for what has to be said.
SILENCE, PATIENCE = 1.0, 15
TRIES = 3


class Orca:
    """The screen reader, in a home of its own. Its log goes to a terminal, to which it is written line by line."""

    def __init__(self):
        self.home = tempfile.TemporaryDirectory()
        self.terminal, slave = pty.openpty()
        tty.setraw(slave)
        self.log = bytearray()
        threading.Thread(target=self.read, daemon=True).start()
        # (it looks for others by pgrep, and with --replace ends that of the user's desktop: here it finds none)
        os.mkdir(os.path.join(self.home.name, "bin"))
        os.symlink("/bin/false", os.path.join(self.home.name, "bin", "pgrep"))
        path = f"{self.home.name}/bin:{os.environ['PATH']}"
        environment = {**os.environ, "HOME": self.home.name, "PATH": path, "LC_ALL": "C.UTF-8", "LANGUAGE": "en"}
        how = {"stdin": subprocess.DEVNULL, "stdout": subprocess.DEVNULL, "stderr": subprocess.DEVNULL, "env": environment}
        self.process = subprocess.Popen([sys.executable, "-c", START, "--debug-file", os.ttyname(slave)], **how)
        self.count = 0
        wait_until(lambda: "Screen reader on." in self.spoken() and listens(), 6 * LONGEST)
        self.hear()

    def read(self):
        """Keeps what is logged."""
        while True:
            try:
                self.log += os.read(self.terminal, 65536)
            except OSError:
                return

    def logged(self):
        """All of the log so far."""
        return self.log.decode(errors="replace")

    def spoken(self):
        """All that was said so far."""
        said = [" ".join(it.split()) for it in SPOKEN.findall(self.logged())]
        return [it for it in said if it]

    def hear(self, told=None):
        """What was said since the last time, once nothing is logged any more and, if that comes, all that has to be said is."""
        begun = changed = time.monotonic()
        size = -1
        while True:
            time.sleep(0.05)
            now, log = time.monotonic(), self.logged()
            if len(log) != size:
                size, changed = len(log), now
            said = self.spoken()[self.count :]
            once = [it for it, after in zip(said, [*said[1:], None]) if it != after]
            is_over = told is None or fits(once, told)
            if now - changed > SILENCE and (is_over and is_at_rest() or now - begun > PATIENCE):
                break
        self.count += len(said)
        return once

    def end(self):
        self.process.terminate()
        try:
            self.process.wait(LONGEST)
        except subprocess.TimeoutExpired:
            self.process.kill()
            self.process.wait()
        self.home.cleanup()


def is_at_rest():
    """Whether no process of this session waits for a processor: on a busy machine what isn't logged yet may still come."""
    bus = os.environ["DBUS_SESSION_BUS_ADDRESS"].encode()
    for folder in glob.glob("/proc/[0-9]*"):
        try:
            with open(f"{folder}/environ", "rb") as file:
                is_own = bus in file.read() and folder != f"/proc/{os.getpid()}"
            for path in glob.glob(f"{folder}/task/*/stat") if is_own else ():
                with open(path, encoding="utf-8", errors="replace") as file:
                    if file.read().rpartition(")")[2].split()[0] == "R":
                        return False
        except OSError:
            continue
    return True


def fits(said, told):
    """Whether what was said is what has to be."""
    if not told:
        return not said
    first, rest = told[0].removeprefix("? "), told[1:]
    return (bool(said) and said[0] == first and fits(said[1:], rest)) or (told[0].startswith("? ") and fits(said, rest))


def listens():
    """Whether some client has asked for changes of states, of texts and of windows."""
    listener = Listener(SPI + "Registry")
    events = {
        event.lower().split(":")[1] for _, event in listener.call("/org/a11y/atspi/registry", SPI + "Registry", "GetRegisteredEvents")[0]
    }
    listener.close()
    return {"statechanged", "textchanged", "activate"} <= {it.replace("-", "") for it in events}


def press(program, key):
    """A key that is told to screen readers."""
    keysym, code = KEYS.get(key) or (ord(key), CODES.get(key, 30))
    program.say(f"key {key} {keysym:x} {code}")
    time.sleep(0.1)


def told_of(path):
    """The steps of a file: what is done, and what has to be said."""
    steps = []
    with open(path, encoding="utf-8") as file:
        for line in file.read().splitlines():
            if line.startswith("> "):
                words = line[2:].split()
                steps.append(([it for it in words if it != "?"], None if "?" in words else []))
            elif line and not line.startswith("#"):
                if steps[-1][1] is not None:
                    steps[-1][1].append(line)
    return steps


def hear_script(orca, program, name, steps, options):
    """Carries out steps, and gives what is said in each."""
    with open(os.path.join(TOP, "examples", f"{name}.script"), encoding="utf-8") as file:
        running = Program(program, file.read(), "--name", f"Hear {name}", *options)
    application(f"Hear {name}")
    orca.hear()
    for words, told in steps:
        for word in words:
            if word == "next":
                running.say()
            else:
                press(running, word)
        yield orca.hear(told)
    running.say("quit")
    running.end()


def differences(orca, program, name, steps):
    """The steps in which something else is said."""
    options = ["--window", "Browser"] if name.startswith("browser") else ["--units", "1"]
    for number, (said, (words, told)) in enumerate(zip(hear_script(orca, program, name, steps, options), steps), 1):
        if told is not None and not fits(said, told):
            yield f"{name}, step {number} ({' '.join(words)}): Orca says {said}, and not {told}"


def check(checks, program):
    """Compares what is said in each step of each file. On a busy machine Orca leaves out what a later event overtakes, so a file has
    several tries."""
    orca = Orca()
    for file in sorted(os.listdir(HERE)):
        name = file.removesuffix(".told")
        steps = told_of(os.path.join(HERE, file))
        for _ in range(TRIES):
            wrong = list(differences(orca, program, name, steps))
            if not wrong:
                break
        for it in wrong:
            checks.that(False, it)
        checks.passed += len(steps) - len(wrong)
        print(f"what Orca says of {name}: {len(steps)} steps", flush=True)
    orca.end()


if __name__ == "__main__":
    # Prints what is said: sayings.py PROGRAM NAME STEP,STEP.. OPTIONS, where a step is words with `+` between them.
    orca = Orca()
    steps = [(it.split("+"), None) for it in sys.argv[3].split(",")]
    for said, (words, _) in zip(hear_script(orca, sys.argv[1], sys.argv[2], steps, sys.argv[4:]), steps):
        print(">", *words)
        print(*said, sep="\n", flush=True)
    orca.end()
