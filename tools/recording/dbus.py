"""A client of D-Bus that has many calls under way at once: as much of the protocol as it takes to ask an application thousands of
questions in a second, and to hear its signals. It needs nothing but Python."""

import os
import re
import select
import socket
import struct
import time
from functools import lru_cache
from urllib.parse import unquote

# How many calls are under way at once, and seconds without any answer after which what is asked is given up.
AT_ONCE, LONGEST_SILENCE = 400, 3.0
LONGEST = 1 << 27
CALL, ANSWER, ERROR, SIGNAL = 1, 2, 3, 4
# Header fields by their numbers.
PATH, INTERFACE, MEMBER, ANSWERS, DESTINATION, SIGNATURE = 1, 2, 3, 5, 6, 8


class BusError(Exception):
    """There is no bus at this address, or it has closed the connection."""


class Call:
    """A method of a name on the bus, with arguments: a text for `s` or `o`, a whole number for `i` or `u`, a bool for `b`."""

    __slots__ = ("name", "path", "interface", "method", "signature", "arguments")

    def __init__(self, name, path, interface, method, signature="", arguments=()):
        self.name, self.path, self.interface, self.method = name, path, interface, method
        self.signature, self.arguments = signature, arguments


# ---- writing


def aligned(buffer, size):
    return buffer + b"\0" * (-len(buffer) % size)


def text_field(number, kind, text):
    """A field of a header, which is a text."""
    data = text.encode()
    length = bytes([len(data)]) if kind == b"g" else struct.pack("<I", len(data))
    return bytes([number, 1]) + kind + b"\0" + length + data + b"\0"


@lru_cache(maxsize=4000)
def header_fields(name, interface, method, signature):
    """The fields of a call's header but for the path."""
    found = b""
    texts = (DESTINATION, b"s", name), (INTERFACE, b"s", interface), (MEMBER, b"s", method), (SIGNATURE, b"g", signature)
    for number, kind, text in texts:
        if text:
            found = aligned(found, 8) + text_field(number, kind, text)
    return aligned(found, 8)


def body_of(signature, arguments):
    """The arguments of a call. Those of a variant are a pair: its signature, and its value."""
    found = b""
    for kind, value in zip(signature, arguments):
        if kind == "v":
            found += bytes([len(value[0])]) + value[0].encode() + b"\0"
            kind, value = value
        if kind in "so":
            data = value.encode()
            found = aligned(found, 4) + struct.pack("<I", len(data)) + data + b"\0"
        else:
            found = aligned(found, 4) + struct.pack("<i" if kind == "i" else "<I", value)
    return found


def message(call, serial):
    """A call as bytes."""
    body = body_of(call.signature, call.arguments)
    fields = header_fields(call.name, call.interface, call.method, call.signature) + text_field(PATH, b"o", call.path)
    return aligned(struct.pack("<cBBBIII", b"l", CALL, 0, 1, len(body), serial, len(fields)) + fields, 8) + body


# ---- reading


def fixed(form, size):
    unpack = struct.Struct(form).unpack_from

    def read(data, at):
        at = -(-at // size) * size
        return unpack(data, at)[0], at + size

    return read


def read_text(data, at):
    at = -(-at // 4) * 4
    end = at + 4 + int.from_bytes(data[at : at + 4], "little")
    return data[at + 4 : end].decode("utf-8", "replace"), end + 1


def read_signature(data, at):
    end = at + 1 + data[at]
    return data[at + 1 : end].decode(), end + 1


def read_bool(data, at):
    number, at = fixed("<I", 4)(data, at)
    return bool(number), at


def read_variant(data, at):
    signature, at = read_signature(data, at)
    return reader(signature)(data, at)


READERS = dict(y=fixed("<B", 1), n=fixed("<h", 2), q=fixed("<H", 2), i=fixed("<i", 4), u=fixed("<I", 4), x=fixed("<q", 8), t=fixed("<Q", 8))
READERS.update(d=fixed("<d", 8), h=fixed("<I", 4), b=read_bool, s=read_text, o=read_text, g=read_signature, v=read_variant)
ALIGNMENT = {**dict(y=1, g=1, v=1, n=2, q=2, x=8, t=8, d=8), "(": 8, "{": 8}


def types(signature):
    """The single types of a signature."""
    found, at = [], 0
    while at < len(signature):
        start = at
        while signature[at] == "a":
            at += 1
        if signature[at] in "({":
            depth = 0
            while True:
                depth += (signature[at] in "({") - (signature[at] in ")}")
                if depth == 0:
                    break
                at += 1
        at += 1
        found.append(signature[start:at])
    return found


@lru_cache(maxsize=1000)
def reader(kind):
    """What reads a value of a single type: an array is a list, a struct or an entry a tuple, an array of entries a dict."""
    if kind[0] == "a":
        return array_reader(kind[1:])
    if kind[0] in "({":
        parts = [reader(part) for part in types(kind[1:-1])]
        if not parts:
            raise ValueError

        def read(data, at):
            at, found = -(-at // 8) * 8, []
            for part in parts:
                value, at = part(data, at)
                found.append(value)
            return tuple(found), at

        return read
    return READERS[kind]


def array_reader(kind):
    item, size = reader(kind), ALIGNMENT.get(kind[0], 4)

    def read(data, at):
        at = -(-at // 4) * 4
        length, at = int.from_bytes(data[at : at + 4], "little"), at + 4
        at, found = -(-at // size) * size, []
        end = at + length
        if end > len(data):
            raise ValueError
        while at < end:
            value, at = item(data, at)
            found.append(value)
        return dict(found) if kind[0] == "{" else found, at

    return read


@lru_cache(maxsize=1000)
def body_reader(signature):
    return reader(f"({signature})")


read_fields = reader("a(yv)")


class Message:
    """A message that has come: its kind, its header's fields by their numbers, and its values."""

    __slots__ = ("kind", "fields", "body")

    def __init__(self, data):
        self.kind = data[1]
        self.fields = dict(read_fields(data, 12)[0])
        signature, length = self.fields.get(SIGNATURE), int.from_bytes(data[4:8], "little")
        self.body = body_reader(signature)(data[len(data) - length :], 0)[0] if signature else ()


def length_of(data, at):
    """How long the message is that begins here, or 0 if its head hasn't all come."""
    if len(data) - at < 16:
        return 0
    if data[at] != ord("l"):
        raise BusError("a message in another byte order")
    body, _, fields = struct.unpack_from("<III", data, at + 4)
    if body + fields > LONGEST:
        raise BusError("a message of more than 128 MiB")
    return 16 + -(-fields // 8) * 8 + body


# ---- the connection


def socket_at(address):
    """Connects to an address of D-Bus, as `unix:path=/run/bus,guid=..;..`: to the first that answers."""
    failure = "no address"
    for one in address.split(";"):
        kind = re.match(r"unix:(?:.*,)?(path|abstract)=([^,]+)", one)
        if kind:
            place = unquote(kind[2])
            client = socket.socket(socket.AF_UNIX, socket.SOCK_STREAM)
            try:
                client.connect(place if kind[1] == "path" else f"\0{place}")
                return client
            except OSError as error:
                failure = f"{place}: {error.strerror}"
    raise BusError(failure)


class Connection:
    """A connection to a bus."""

    def __init__(self, address):
        self.socket, self.received, self.serial = socket_at(address), b"", 0
        self.answers, self.signals, self.count = {}, [], 0
        self.socket.sendall(b"\0AUTH EXTERNAL " + str(os.getuid()).encode().hex().encode() + b"\r\n")
        if not self.line().startswith(b"OK"):
            raise BusError("it refuses this user")
        self.socket.sendall(b"BEGIN\r\n")
        hello = self.ask([Call("org.freedesktop.DBus", "/org/freedesktop/DBus", "org.freedesktop.DBus", "Hello")])[0]
        if not hello:
            raise BusError("it doesn't answer")
        self.name = hello[0]

    def line(self):
        found = b""
        while not found.endswith(b"\r\n"):
            some = self.socket.recv(1)
            if not some:
                raise BusError("it closes the connection")
            found += some
        return found

    def receive(self, seconds):
        """Takes what has come, and waits at most so long for it: whether anything has."""
        if not select.select([self.socket], [], [], max(0, seconds))[0]:
            return False
        some = self.socket.recv(1 << 20)
        if not some:
            raise BusError("the bus has closed the connection")
        data, at = self.received + some, 0
        while (length := length_of(data, at)) and len(data) - at >= length:
            self.take(data[at : at + length])
            at += length
        self.received = data[at:]
        return True

    def take(self, data):
        """Keeps a message, if it is an answer that is waited for, or a signal."""
        try:
            found = Message(data)
        except (IndexError, KeyError, ValueError, struct.error, RecursionError):
            return
        if found.kind == SIGNAL:
            self.signals.append(found)
        elif found.kind in (ANSWER, ERROR) and found.fields.get(ANSWERS) in self.answers:
            self.answers[found.fields[ANSWERS]] = found.body if found.kind == ANSWER else None

    def ask(self, calls, patience=LONGEST_SILENCE):
        """The answers to these calls in order: a tuple of values each, or `None` for an error, and for no answer in so many seconds."""
        waiting, serials, sent, last = object(), [], 0, time.monotonic()
        self.count += len(calls)
        while True:
            left = sum(self.answers[serial] is waiting for serial in serials[-2 * AT_ONCE :])
            if left <= AT_ONCE // 2 and sent < len(calls):
                some = calls[sent : sent + AT_ONCE - left]
                serials += range(self.serial + 1, self.serial + 1 + len(some))
                self.answers.update(dict.fromkeys(serials[sent:], waiting))
                self.socket.sendall(b"".join(message(call, serial) for call, serial in zip(some, serials[sent:])))
                sent, self.serial = sent + len(some), self.serial + len(some)
            elif not left and all(self.answers[serial] is not waiting for serial in serials):
                break
            if self.receive(patience):
                last = time.monotonic()
            elif time.monotonic() - last >= patience:
                break
        found = [self.answers.pop(serial, None) for serial in serials] + [None] * (len(calls) - len(serials))
        return [None if answer is waiting else answer for answer in found]

    def close(self):
        self.socket.close()
