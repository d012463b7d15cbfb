"""Messages of D-Bus, as GLib writes them: what the client reads of them, and what it writes in their place."""

from recording.dbus import ANSWER, CALL, ERROR, SIGNAL, BusError, Call, Connection, Message, length_of, message

# Written by `Gio.DBusMessage.to_blob`.
CALL_BYTES = bytes.fromhex(
    "6c0100010c0000004d0000008000000001016f001d0000002f6f72672f613131792f61747370692f61636365737369626c652f31320000000201"
    "7300130000006f72672e613131792e61747370692e54657874000000000006017300040000003a312e3700000000080167000369697500000000"
    "00000000030173000f00000047657452616e6765457874656e74730003000000ffffffff00000000"
)
SET_BYTES = bytes.fromhex(
    "6c0100012c000000050000007400000001016f000d0000002f6f72672f613131792f627573000000020173001f0000006f72672e667265656465"
    "736b746f702e444275732e50726f7065727469657300060173000c0000006f72672e613131792e42757300000000080167000373737600000000"
    "00000000030173000300000053657400000000000f0000006f72672e613131792e53746174757300090000004973456e61626c65640001620000"
    "000001000000"
)
PLAIN_BYTES = bytes.fromhex(
    "6c01000100000000010000005800000001016f00020000002f6100000000000002017300190000006f72672e613131792e61747370692e416363"
    "65737369626c650000000000000006017300040000003a312e37000000000301730007000000476574526f6c6500"
)
REPLY_BYTES = bytes.fromhex(
    "6c020101f8000000090000002000000008016700126128736f29617b73737d61757664626179780005017500040000002d000000000000000400"
    "00003a312e3700000000040000002f702f3100000000040000003a312e3700000000040000002f702f6500000000270000000000000007000000"
    "746f6f6c6b6974000300000047544b0000000000030000007461670002000000c3a900000800000007000000ffffffff05617b73767d00005800"
    "0000040000004e616d6500017300020000004f4b00000000000006000000506172656e74000428736f290000000000000000040000003a312e37"
    "00000000010000002f00000000000000010000004e00016900000000fcffffff000000000000f83f010000000200000061620000000000000000"
    "000000ffffff"
)
ERROR_BYTES = bytes.fromhex(
    "6c0301010a0000000a0000004800000004017300280000006f72672e667265656465736b746f702e444275732e4572726f722e556e6b6e6f776e"
    "4f626a656374000000000000000008016700017300000501750004000000050000006e6f202f6100"
)
SIGNAL_BYTES = bytes.fromhex(
    "6c040101480000000b0000007500000001016f001c0000002f6f72672f613131792f61747370692f61636365737369626c652f33000000000201"
    "73001b0000006f72672e613131792e61747370692e4576656e742e4f626a6563740000000000080167000973696976617b73767d000003017300"
    "0c00000053746174654368616e6765640000000007000000666f63757365640001000000000000000428736f2900000000000000040000003a31"
    "2e3700000000020000002f7000001000000001000000780001690000000000000000"
)

TEXT_CALL = Call(":1.7", "/org/a11y/atspi/accessible/12", "org.a11y.atspi.Text", "GetRangeExtents", "iiu", (3, -1, 0))
SET = ("org.a11y.Bus", "/org/a11y/bus", "org.freedesktop.DBus.Properties", "Set", "ssv")
# A call, its serial number, and its bytes.
WRITTEN = [(TEXT_CALL, 77, CALL_BYTES), (Call(*SET, ("org.a11y.Status", "IsEnabled", ("b", True))), 5, SET_BYTES)]
WRITTEN.append((Call(":1.7", "/a", "org.a11y.atspi.Accessible", "GetRole"), 1, PLAIN_BYTES))
PROPERTIES = {"Name": "OK", "Parent": (":1.7", "/"), "N": -4}
REPLY = ([(":1.7", "/p/1"), (":1.7", "/p/e")], {"toolkit": "GTK", "tag": "é"}, [7, 2**32 - 1], PROPERTIES, 1.5, True, [97, 98], -(2**40))
# Bytes, the kind of the message, and its values.
READ = [(REPLY_BYTES, ANSWER, REPLY), (ERROR_BYTES, ERROR, ("no /a",)), (CALL_BYTES, CALL, (3, -1, 0))]
READ.append((SIGNAL_BYTES, SIGNAL, ("focused", 1, 0, (":1.7", "/p"), {"x": 0})))
READ.append((SET_BYTES, CALL, ("org.a11y.Status", "IsEnabled", True)))


class Deaf(Connection):
    """A connection without a bus."""

    def __init__(self):
        self.answers, self.signals = {4: None}, []


def damaged(data):
    """A message with each of its bytes replaced, and cut off at each."""
    for at in range(len(data)):
        yield data[:at]
        for byte in (0, 1, 0x7F, 0xFF, ord("a"), ord("("), ord("v")):
            yield data[:at] + bytes([byte]) + data[at + 1 :]


def faults_of_damage(data):
    """Whether the client bears a message that is damaged."""
    for one in damaged(data):
        try:
            length = length_of(one, 0)
            Deaf().take(one[:length] if 0 < length <= len(one) else one)
        except BusError:
            pass
        except Exception as error:
            yield f"{one.hex()}: {error!r}"


def check():
    """The checks: what each is about, and what is wrong."""
    for data, kind, body in READ:
        found = Message(data)
        yield "what is read of a message", [] if (found.kind, found.body) == (kind, body) else [f"kind {found.kind}, {found.body}"]
        yield "its length", [] if length_of(data, 0) == len(data) else [f"{length_of(data, 0)} and not {len(data)}"]
        yield "damaged messages", list(faults_of_damage(data))
    for call, serial, data in WRITTEN:
        # (fields of a header may come in any order)
        own, other = message(call, serial), Message(data)
        found = Message(own)
        is_same = (found.fields, found.body, len(own), own[:12]) == (other.fields, other.body, len(data), data[:12])
        yield "a call", [] if is_same else [f"{own.hex()} and not {data.hex()}"]
