"""A program on the accessibility bus, and clients of it: how they are started, asked and listened to."""

import os
import re
import subprocess
import time

import gi
import pyatspi
from gi.repository import Gio, GLib

gi.require_version("Atspi", "2.0")
from gi.repository import Atspi

# (on a busy machine an answer takes longer than the client's 0.8 seconds)
Atspi.set_timeout(20000, 20000)

TOP = os.path.dirname(os.path.dirname(os.path.dirname(os.path.abspath(__file__))))
SPI = "org.a11y.atspi."
NODES = "/org/a11y/atspi/accessible/"
ROOT = NODES + "root"
# Seconds until what should come by itself has come.
LONGEST = 20


class Checks:
    """Counts what passed, and says what failed."""

    def __init__(self):
        self.passed, self.failed, self.said = 0, 0, 0

    def that(self, holds, what):
        self.passed, self.failed = self.passed + bool(holds), self.failed + (not holds)
        if not holds and self.said < 40:
            self.said += 1
            print(what, flush=True)
        return holds


def wait_until(holds, seconds=LONGEST, pause=0.02):
    """Waits until something is so, and gives whether it came."""
    end = time.monotonic() + seconds
    while time.monotonic() < end:
        found = holds()
        if found:
            return found
        time.sleep(pause)
    return None


def commands(script):
    """The updates and host lines of a script, each as one text."""
    found, update = [], None
    for line in script.split("\n"):
        if update is not None:
            update += line + "\n"
        elif line.startswith("update "):
            update = line + "\n"
        elif line.startswith("host "):
            found.append(line + "\n")
        if update is not None and line == "end":
            found.append(update)
            update = None
    return found


def in_window(command, title):
    """An update whose root is put into a window, as --window does it."""
    head, _, rest = command.partition("\n")
    found = re.fullmatch(r"(update root .*\broot=)(\d+)(.*)", head)
    if not title or not found:
        return command
    window = 2**64 - 1
    return f'{found[1]}{window}{found[3]}\nnode {window} Window label="{title}" children={found[2]}\n{rest}'


class Program:
    """show-atspi with a script, and lines that have it go on."""

    def __init__(self, program, script, *options, environment=None, stderr=None):
        reading, self.keys = os.pipe()
        command = [program, "--keys", f"/dev/fd/{reading}", *options]
        how = {"stdin": subprocess.PIPE, "stdout": subprocess.PIPE, "stderr": stderr, "text": True, "encoding": "utf-8"}
        self.process = subprocess.Popen(command, pass_fds=[reading], env=environment, **how)
        os.close(reading)
        self.process.stdin.write(script)
        self.process.stdin.close()
        self.asked = []
        self.first = self.process.stdout.readline().rstrip("\n")

    def say(self, line="next"):
        """Sends a line of the keys, and gives what is printed until it is done."""
        os.write(self.keys, (line + "\n").encode())
        lines = []
        while True:
            found = self.process.stdout.readline()
            if not found or found == "ready\n":
                return lines
            (self.asked if found.startswith("asked") else lines).append(found.rstrip("\n"))

    def end(self):
        """Ends it, and gives its status."""
        os.close(self.keys)
        self.process.stdout.close()
        return self.process.wait(LONGEST)


def application(name):
    """The application as pyatspi sees it, once it is there; nothing of it is kept by the client."""

    def find():
        desktop = pyatspi.Registry.getDesktop(0)
        desktop.clear_cache()
        for it in range(desktop.get_child_count()):
            found = desktop.get_child_at_index(it)
            if found is not None and found.get_name() == name:
                return found
        return None

    found = wait_until(find)
    if found is not None:
        found.set_cache_mask(Atspi.Cache.NONE)
    return found


def bus_address():
    """The address of the accessibility bus."""
    session = Gio.bus_get_sync(Gio.BusType.SESSION)
    return session.call_sync("org.a11y.Bus", "/org/a11y/bus", "org.a11y.Bus", "GetAddress", None, None, 0, -1).unpack()[0]


class Listener:
    """A client without pyatspi: hears each signal of a program in turn, and asks it anything."""

    def __init__(self, name):
        flags = Gio.DBusConnectionFlags.AUTHENTICATION_CLIENT | Gio.DBusConnectionFlags.MESSAGE_BUS_CONNECTION
        self.bus = Gio.DBusConnection.new_for_address_sync(bus_address(), flags)
        self.name = name
        self.signals, self.raw = [], []
        self.bus.signal_subscribe(name, None, None, None, None, 0, self.hear)

    def hear(self, bus, sender, path, interface, member, values):
        if interface.startswith(SPI + "Event."):
            self.signals.append((path, interface[len(SPI + "Event.") :], member, *values.unpack()[:4]))

    def call(self, path, interface, member, values=None):
        """The answer of a call; an error is raised as GLib.Error."""
        answer = self.bus.call_sync(self.name, path, interface, member, values, None, 0, 10000)
        return answer.unpack()

    def get(self, path, interface, name):
        return self.call(path, "org.freedesktop.DBus.Properties", "Get", GLib.Variant("(ss)", (SPI + interface, name)))[0]

    def heard(self):
        """The signals since the last time: those that were sent before a call is answered."""
        try:
            self.call(ROOT, "org.freedesktop.DBus.Peer", "Ping")
        except GLib.Error:
            pass
        while GLib.MainContext.default().iteration(False):
            pass
        found, self.signals = self.signals, []
        return found

    def close(self):
        self.bus.close_sync()


def id_of(path):
    """The id in a path, or None for what is no node."""
    found = re.fullmatch(NODES + r"(\d+)/(\d+)", path)
    return (int(found[1]), int(found[2])) if found else None


def path_of(id):
    return f"{NODES}{id[0]}/{id[1]}"
