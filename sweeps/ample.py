"""With ample memory no call answers that there is none, whatever its parameters are: numbers of every class, and bytes of
each length."""
import ctypes
import random

from calls import HOST, NO_MEMORY, Request, World
from in_words import Shows
from messages import ADD, DST, GATEWAY, NETMASK, any_message, inet, mask, message, sized
from misuse import Outs, each_call

# The most bytes of what a call is given: past the longest write.
MOST_GIVEN = 8300
START = (
    b"if le0 broadcast 6 080020010203", b"if lo0 loopback 24 -", b"if sl0 ptp 28 -", b"addr le0 10.0.0.1/8 cloning",
    b"addr lo0 127.0.0.1/8", b"addr sl0 12.0.0.1/24 to 12.0.0.2", b"open a 100 any", b"open c 101 2",
    b"route a 1 add 0.0.0.0/0 via 10.0.0.2", b"route a 2 add 40.0.0.0/8 via 10.0.0.2 flags cloning",
)
# What ends an address that begins with any byte.
ENDS = 0, 1, 0x090909, 0xFFFFFF
BYTES, OUTS = "const uint8_t *", ("uint64_t *", "hk_route *", "uint8_t *", "size_t *")
NUMBERS = {
    "bool": (False, True),
    "uint8_t": range(256),
    "uint16_t": [number << shift for number in range(256) for shift in (0, 8)],
    "size_t": [*range(256), (1 << 32) - 1, (1 << 64) - 1],
    "uint32_t": [
        *(first << 24 | end for first in range(256) for end in ENDS),
        *(number << shift for number in range(256) for shift in (0, 8, 16)),
    ],
}


def begun(library):
    world = World(library)
    codes = [world.open(), *(world.call("hk_line", line) for line in START)]
    return world, codes


def commands(library, outs, only):
    """Each call that answers a code, or this one alone, with what it is given and with the kinds of that."""
    given = {**each_call(outs), "hk_redirect": (0x14000001, 0x0A000003, 0x0A000002)}
    for name in [only] if only else sorted(library.of_worlds() - {"hk_open"}):
        result, parameters = library.functions[name]
        if result == "uint32_t":
            kinds = [kind for kind, _ in parameters[1:]]
            yield name, given[name], [kind for at, kind in enumerate(kinds) if at == 0 or kinds[at - 1] != BYTES]


def claim_none(sweep, what, codes):
    """None of these codes is that there is no memory."""
    sweep.claim(f"{what}: {len(codes)} calls, {codes.count(NO_MEMORY)} without memory", codes and NO_MEMORY not in codes)


def give_each_number(sweep, only=None):
    """Each parameter that is a number has each value of every class, in a world that was just begun."""
    library, outs = sweep.library(), Outs()
    for name, given, kinds in commands(library, outs, only):
        for at, kind in enumerate(kinds):
            codes = []
            for number in NUMBERS.get(kind, ()):
                world, began = begun(library)
                codes += [*began, world.call(name, *given[:at], number, *given[at + 1 :])]
                world.close()
            if kind in NUMBERS:
                claim_none(sweep, f"{name} with each number at {at}", codes)
    claim_rest(sweep, library)


def ask_with_each_number(sweep):
    """Each field of a request has each value of every class."""
    library, codes = sweep.library(), []
    fields = [(name, kind.__name__) for name, kind in Request._fields_ if name != "link"]
    for name, kind in fields:
        for number in NUMBERS["uint32_t" if kind == "c_uint" else "uint8_t"]:
            world, began = begun(library)
            request = Request(destination=0x1E000000, prefix=8, genmask=HOST, family=2, gateway=0x0A000002, inits=0xFF)
            setattr(request, name, number)
            given = b"a", ctypes.byref(request)
            codes += [*began, *(world.call(f"hk_{verb}_route_n", *given) for verb in ("add", "change", "get", "lock", "delete"))]
            world.close()
    claim_none(sweep, "requests with each number", codes)
    claim_rest(sweep, library)


def contents(n):
    """Bytes of this number: those that are no message and no line, one that has its length, and a comment."""
    return bytes(n), sized(message(ADD, {DST: inet("30.0.0.0")}).ljust(n, b"\1")[:n]), b"#" * n


def give_each_length(sweep, only=None):
    """Each parameter that is bytes has each length."""
    library, outs = sweep.library(), Outs()
    for name, given, kinds in commands(library, outs, only):
        for at, kind in enumerate(kinds):
            world, codes = begun(library)
            for n in range(MOST_GIVEN + 1 if kind == BYTES else 0):
                codes += [world.call(name, *given[:at], text, *given[at + 1 :]) for text in contents(n)]
            world.close()
            claim_none(sweep, f"{name} with bytes of each length at {at}", codes)
    claim_rest(sweep, library)


def write_each_address(sweep):
    """A route to each address of a class, and any messages; each is asked for, and goes."""
    library, rng, codes, outs = sweep.library(), random.Random(0), [], Outs()
    for first in range(256):
        world, began = begun(library)
        codes += began
        for end in ENDS:
            given = {DST: bytes([16, 2, 0, 0, first, *end.to_bytes(3, "big"), *bytes(8)]), GATEWAY: inet("10.0.0.2")}
            routes = [message(kind, given, flags=0x807) for kind in (1, 4, 3, 8, 2)]
            masked = message(ADD, {**given, NETMASK: mask(first % 33)}, flags=0x103, inits=0xFF, metrics=range(1, 11))
            texts = [*routes, masked, *(any_message(rng) for _ in range(4))]
            codes += [world.call("hk_write_n", b"a", text) for text in texts]
            codes += [world.call("hk_packet", first << 24 | end, ctypes.byref(outs.route)), world.call("hk_read_n", b"a")]
        codes.append(world.call("hk_dump", False, 0, 1 << 20))
        world.close()
    claim_none(sweep, "writes to each address", codes)
    claim_rest(sweep, library)


def show_each_length(sweep):
    """Messages in words, of each length."""
    library = sweep.library()
    shows = Shows(library)
    codes = [shows.into(text, n % 2 * (1 << 16))[0] for n in range(MOST_GIVEN + 1) for text in contents(n)[:2]]
    claim_none(sweep, "messages in words of each length", codes)
    claim_rest(sweep, library)


def claim_rest(sweep, library):
    sweep.claim("ample memory: all is freed, and none was refused", not library.get("blocks") and not library.get("refused"))


def jobs():
    yield from ((job,) for job in (
        give_each_number, ask_with_each_number, give_each_length, write_each_address, show_each_length,
    ))


def trials():
    """A library that answers at will that there is no memory, and the sweep that has to notice it."""
    yield "starves", give_each_number, "hk_redirect"
    yield "starves", give_each_length, "hk_write_n"
    yield "starves", write_each_address
    yield "starves", show_each_length
