"""Messages in the layouts of systems of today, by hk_convert: those of the examples each way, cut at each length, any
messages there and back, kernels' link-layer addresses; into each room; numbers that are no system's."""
import ctypes
import random
import re
import struct

from calls import INVALID, LEFT_OUT, OK, Room
from in_words import UNTOLD
from layouts import ORDER, SYSTEMS, Refused, convert
from messages import DST, GATEWAY, NETMASK, any_shown, inet, link, mask, message
from misuse import FILLED

MOST = 2304
FAULTS = dict(zip(("Kind", "Length", "Version", "Overrun", "Wide"), range(257, 262)))
PAIRS = [(source, to) for source in SYSTEMS for to in SYSTEMS]
# Names, addresses and what is behind them.
LINKS = (b"em0", bytes(6), b""), (b"", b"", b""), (b"bridge10", bytes(8), b""), (b"em0", bytes(6), b"\1")


class Converts:
    """hk_convert, with a message and a room behind which nobody may read or write."""

    def __init__(self, library):
        self.library, self.given, self.out = library, Room(1 << 17), Room(1 << 13)

    def into(self, source, to, message, n):
        """What is answered, the size that is told, and the room of n bytes, which was filled before."""
        size, room = ctypes.c_size_t(UNTOLD), self.out.put(bytes([FILLED]) * n)
        code = self.library.convert(source, to, self.given.put(message), len(message), room, n, ctypes.byref(size))
        return code, size.value, self.out.last(n)

    def answer(self, source, to, message):
        """The message there, or the code for which there is none; None where it says what it may not."""
        code, size, room = self.into(SYSTEMS.index(source), SYSTEMS.index(to), message, MOST)
        if code == OK:
            return room[:size] if set(room[size:]) <= {FILLED} else None
        return code if size == UNTOLD and set(room) == {FILLED} else None


def wanted(source, to, message):
    """The same by the second reading."""
    try:
        return convert(source, to, message)
    except Refused as why:
        return FAULTS[str(why)]


def claim(sweep, converts, source, to, message):
    same = converts.answer(source, to, message) == wanted(source, to, message)
    sweep.claim(f"{message[:160].hex()} of {source} for {to}", same)


def messages_of(examples):
    """Those that the examples write and read, but for such as have no counterpart anywhere."""
    texts = b"".join(example.script + example.transcript for example in examples).decode(errors="replace")
    found = {bytes.fromhex(digits) for digits in re.findall(r"^(?:msg|write \w+) ((?:[0-9a-f]{2})+)$", texts, re.M)}
    return sorted(found)


def convert_each_message(sweep, examples):
    """In each layout, and from there in each other."""
    converts = Converts(sweep.library())
    for text in messages_of(examples):
        for system in SYSTEMS:
            there = wanted("bsd44", system, text)
            claim(sweep, converts, "bsd44", system, text)
            for to in SYSTEMS if isinstance(there, bytes) else ():
                claim(sweep, converts, system, to, there)


def convert_fronts(sweep, examples):
    """Messages that are cut at each length, which they say or not, and such as have bytes behind."""
    converts = Converts(sweep.library())
    for source in SYSTEMS:
        for text in messages_of(examples)[::9]:
            whole = wanted("bsd44", source, text)
            for n in range(len(whole) + 2) if isinstance(whole, bytes) else ():
                front = (whole + b"\5\6")[:n]
                said = struct.pack(ORDER[source] + "H", n)[:n] + front[2:]
                for to in SYSTEMS:
                    claim(sweep, converts, source, to, front)
                    claim(sweep, converts, source, to, said)


def changed(rng, text):
    """The message with some bytes changed, mostly behind what says its length, version and type."""
    bytes_ = bytearray(text)
    for _ in range(rng.choice((0, 1, 1, 2, 8))):
        at = rng.randrange(rng.choice((0, 4)), len(text)) if len(text) > 4 else 0
        bytes_[at : at + 1] = bytes([rng.choice((0, 1, 2, 5, 7, 18, 20, 32, 54, 56, 255, rng.randrange(256)))])
    return bytes(bytes_[: len(text)])


def convert_any_messages(sweep, seed):
    """Messages with anything in them, in each layout, from a fixed seed."""
    rng, converts = random.Random(seed), Converts(sweep.library())
    for text in any_shown(seed)[:300]:
        for source in SYSTEMS:
            there = wanted("bsd44", source, text)
            given = changed(rng, there) if isinstance(there, bytes) and there else text
            for to in SYSTEMS:
                claim(sweep, converts, source, to, given)


def convert_there_and_back(sweep, seed):
    """What a layout has a place for comes back, and converting once more changes nothing."""
    converts = Converts(sweep.library())
    for text in any_shown(seed)[:300]:
        for to in SYSTEMS:
            there = converts.answer("bsd44", to, text)
            if isinstance(there, bytes):
                back = converts.answer(to, "bsd44", there)
                once_more = converts.answer(to, to, there) == there
                same = back == wanted(to, "bsd44", wanted("bsd44", to, text))
                sweep.claim(f"{text[:160].hex()} for {to} and back", same and once_more)


def convert_links_of_kernels(sweep):
    """Link-layer gateways with a kernel's length bytes, with zeros behind what they tell, or not."""
    converts = Converts(sweep.library())
    for source, to in PAIRS:
        for size in (20, 31, 32, 33, 54, 56, 255):
            for name, number, rest in LINKS:
                gateway = link(name, number, 2, size)
                gateway = gateway[: len(gateway) - len(rest)] + rest
                own = message(1, {DST: inet("10.0.0.0"), GATEWAY: gateway, NETMASK: mask(9)})
                text = wanted("bsd44", source, own) if source != "bsd44" else own
                claim(sweep, converts, source, to, text if isinstance(text, bytes) else own)


def convert_into_each_room(sweep, examples):
    """A message is copied where all of it fits, and nothing behind it is touched; else nothing is. Its size is told."""
    converts = Converts(sweep.library())
    for source, to in PAIRS:
        for text in messages_of(examples)[::120]:
            given = wanted("bsd44", source, text)
            whole = wanted(source, to, given) if isinstance(given, bytes) else None
            for n in range(len(whole) + 3) if isinstance(whole, bytes) else ():
                fits = n >= len(whole)
                room = (whole if fits else b"") + bytes([FILLED]) * (n - len(whole) if fits else n)
                got = converts.into(SYSTEMS.index(source), SYSTEMS.index(to), given, n)
                sweep.claim(f"of {source} for {to} into {n} bytes", got == (OK if fits else LEFT_OUT, len(whole), room))


def convert_for_no_system(sweep):
    converts = Converts(sweep.library())
    text = message(4, {DST: inet("10.0.0.1")})
    for number in (5, 6, 255, 256, 0x7FFFFFFF, 0xFFFFFFFF):
        for pair in ((number, 0), (0, number), (number, number)):
            got = converts.into(*pair, text, MOST)
            sweep.claim(f"systems {pair}", got == (INVALID, UNTOLD, bytes([FILLED]) * MOST))


def trials(examples):
    """What is wrong with the library, and the sweep that has to notice it."""
    given = [examples["one-get"]]
    yield "turns", convert_each_message, given
    yield "turns", convert_there_and_back, 0
    yield "cuts", convert_each_message, given
    yield "welcomes", convert_into_each_room, given
    yield "scribbles", convert_into_each_room, given
    yield "excuses", convert_any_messages, 0
    yield "excuses", convert_fronts, given


def jobs(examples):
    given = [*examples.values()]
    yield from ((job, given) for job in (convert_each_message, convert_into_each_room))
    yield convert_fronts, [examples["one-get"]]
    yield from ((job, seed) for job in (convert_any_messages, convert_there_and_back) for seed in range(4))
    yield from ((convert_links_of_kernels,), (convert_for_no_system,))
