"""Messages taken apart, by hk_message_header and hk_message_address: those of the examples, one cut at each length, and such
as have anything in them, against a second reading, from docs/FORMATS.md and route(4)."""
import ctypes
import struct

from calls import OK, Header, Room, Sockaddr
from in_words import messages_of
from messages import any_shown
from misuse import FILLED
from reading import ABOUT_ADDRESS, METRICS, room

LENGTH, VERSION, OVERRUN, ABSENT = 258, 259, 260, 262
BYTES, INET, MASK, LINK = range(4)
MASKS = 0x4, 0x8
BITS = [1 << bit for bit in range(8)]
NO_BITS = 0, 3, 0x100, 0xFFFFFFFF
NO_MESSAGES = b"", b"\0", b"\0\3\3", b"\0\x14\3\x0c", bytes(76), b"\0\x4c\3" + bytes(73)


class Parts:
    """The two calls, with a message and a room behind which nobody may read or write."""

    def __init__(self, library):
        self.library, self.given, self.out = library, Room(1 << 17), Room(1 << 12)

    def found(self, call, kind, message, *given):
        """What is answered, and the fields; or the first field, where each byte is as it was before."""
        room = self.out.put(bytes([FILLED]) * ctypes.sizeof(kind))
        code = call(self.given.put(message), len(message), *given, room)
        told = self.out.last(ctypes.sizeof(kind))
        fields = kind.from_buffer_copy(told)
        stays = set(told) == {FILLED}
        return code, None if stays else {name: getattr(fields, name) for name, _ in kind._fields_}

    def header(self, message):
        return self.found(self.library.header, Header, message)

    def address(self, message, bit):
        return self.found(self.library.address, Sockaddr, message, bit)


def is_about_address(message):
    return message[3:4] and message[3] in ABOUT_ADDRESS


def header_of(message):
    """The fields of a header."""
    named = dict.fromkeys((name for name, _ in Header._fields_), 0)
    if is_about_address(message):
        names, form = ("kind", "addrs", "flags", "index", "metric"), ">xxxBIIHxxI"
    else:
        names = "kind index flags addrs pid seq error use_count inits locks".split() + METRICS
        form = ">xxxBHxx17I"
    return {**named, **dict(zip(names, struct.unpack_from(form, message)))}


def slots_of(message):
    """Where each address that is there begins, by its bit, and its bytes; None where one passes the end."""
    at, found = (20 if is_about_address(message) else 76), {}
    for bit in BITS:
        if header_of(message)["addrs"] & bit and at < len(message):
            size = message[at]
            if at + size > len(message):
                return None
            found[bit] = at, message[at : at + max(size, 1)]
            at += room(size)
    return found


def fault_of(message):
    size = 20 if is_about_address(message) else 76
    if len(message) < size or int.from_bytes(message[:2], "big") != len(message):
        return LENGTH
    if message[2] != 3:
        return VERSION
    return OVERRUN if slots_of(message) is None else OK


def form_of(bit, text):
    """What an address is read as, its number, and the bits of a mask."""
    size, family = text[0], family_of(text)
    number = int.from_bytes(text[4:8].ljust(4, b"\0"), "big")
    prefixes = [prefix for prefix in range(33) if number == (1 << 32) - (1 << 32 - prefix)]
    if bit in MASKS and size <= 16 and prefixes:
        return MASK, 0, prefixes[0]
    if family == 2 and 8 <= size <= 16:
        return INET, number, 0
    return LINK if family == 18 and 8 <= size <= 32 else BYTES, 0, 0


def family_of(text):
    return text[1] if text[0] > 1 else 0


def wanted_header(message):
    code = fault_of(message)
    return code, None if code == LENGTH else header_of(message)


def wanted_address(message, bit):
    code = fault_of(message)
    if code != OK:
        return code, None
    if bit not in slots_of(message):
        return ABSENT, None
    at, text = slots_of(message)[bit]
    form, inet, bits = form_of(bit, text)
    return OK, {
        "at": at, "inet": inet, "n": len(text), "form": form, "bits": bits, "family": family_of(text),
    }


def claim(sweep, parts, message):
    same = parts.header(message) == wanted_header(message)
    same = same and all(parts.address(message, bit) == wanted_address(message, bit) for bit in (*BITS, *NO_BITS))
    sweep.claim(f"{message[:160].hex()} is taken apart", same)


def take_each_apart(sweep, examples):
    parts = Parts(sweep.library())
    for message in sorted({message for example in examples for message in messages_of(example)}):
        claim(sweep, parts, message)


def take_fronts_apart(sweep, examples):
    """Each front of a message, as it is and with its own length."""
    parts = Parts(sweep.library())
    for example in examples:
        for message in messages_of(example):
            for n in range(len(message)):
                front = message[:n]
                claim(sweep, parts, front)
                claim(sweep, parts, n.to_bytes(2, "big") + front[2:])
    for message in NO_MESSAGES:
        claim(sweep, parts, message)


def take_any_apart(sweep, seed):
    """Messages with anything in them, from a fixed seed; and of another version."""
    parts = Parts(sweep.library())
    for message in any_shown(seed):
        claim(sweep, parts, message)
        claim(sweep, parts, message[:2] + b"\4" + message[3:])


def trials(examples):
    """What is wrong with the library, and the sweep that has to notice it."""
    given = [examples["one-get"]]
    yield "cuts", take_each_apart, given
    yield "mixes", take_each_apart, given
    yield "scribbles", take_fronts_apart, given
    yield "welcomes", take_fronts_apart, given
    yield "excuses", take_any_apart, 0


def jobs(examples):
    yield take_each_apart, [*examples.values()]
    yield take_fronts_apart, [examples["one-get"], examples["address-is-announced"]]
    yield from ((take_any_apart, seed) for seed in range(4))
