"""The library's calls as they aren't meant: on worlds that are closed or open twice, with each length at its border,
and with numbers that say nothing."""
import ctypes

from calls import BAD, EXISTS, HOST, INET, INVALID, LINK, LINK_BYTES, OK, Handle, Request, Route, World
from runs import MOST_LINE

TOO_LONG, NO_SOCKET = 40, 9
MOST_NAME, MOST_LINK, MOST_PREFIX, MOST_MESSAGE, MOST_WRITE = 8, 8, 32, 8192, 8246
KINDS = 3
VERBS = ("add", "delete", "change", "get", "lock")

START = (b"if le0 broadcast 6 080020010203", b"addr le0 10.0.0.1/8 cloning", b"open a 100 any")
ASK = b"dump 100000"
FILLED = 0xA5
# The bytes of a room that each struct fits into.
ROOM = 128


class Outs:
    """What calls write to: it stays as it is where a call is refused."""

    def __init__(self):
        self.number = ctypes.c_uint64(FILLED)
        self.route = Route.from_buffer_copy(bytes([FILLED]) * ctypes.sizeof(Route))
        self.room = ctypes.create_string_buffer(bytes([FILLED]) * ROOM)
        self.request = Request(destination=0x1E000000, prefix=8, genmask=HOST, family=INET, gateway=0x0A000002)

    def stay(self):
        return self.number.value == FILLED and {*bytes(self.route), *self.room.raw[:ROOM]} == {FILLED}


def each_call(outs):
    """A call of each function, with what an open world would take."""
    size, route, room = ctypes.byref(outs.number), ctypes.byref(outs.route), ctypes.addressof(outs.room)
    request = ctypes.byref(outs.request)
    return {
        **{f"hk_{verb}_route_n": (b"a", request) for verb in VERBS},
        "hk_attach_n": (b"ed0", 0, 6, b"\1\2\3"),
        "hk_add_address_n": (b"le0", 0x0A000002, 8, True, False, 0),
        "hk_remove_address_n": (b"le0", 0x0A000001),
        "hk_listen_n": (b"b", 100, 0),
        "hk_shut_n": (b"a",),
        "hk_loopback_n": (b"a", False),
        "hk_write_n": (b"a", bytes(92)),
        "hk_read_n": (b"a",),
        "hk_lost_n": (b"a", size),
        "hk_packet": (0x0A090909, route),
        "hk_redirect": (0x14000001, 0x0A000002, 0x0A000001),
        "hk_losing": (0x0A090909,),
        "hk_dump_size": (False, 0, size),
        "hk_dump": (False, 0, 1000),
        "hk_line": (b"dump ask",),
        "hk_interface_of": (1, room),
        "hk_next_address": (1, size, room),
        "hk_socket_at": (0, room),
        "hk_route_of": (0x0A000000, 8, room),
        "hk_fetch": (room, ROOM),
        "hk_text": (room, ROOM),
    }


def claim_closed(sweep, what, world):
    """Each call on a closed world is refused, and does nothing."""
    outs, library = Outs(), world.library
    calls = each_call(outs)
    sweep.claim("each call is tried", {*calls, "hk_open", "hk_close"} == library.of_worlds())
    for name, given in calls.items():
        asked = library.get("asked")
        wanted = INVALID if library.functions[name][0] == "uint32_t" else 0
        holds = world.call(name, *given) == wanted and world.handle.core is None and library.get("asked") == asked
        sweep.claim(f"{name} on {what}", holds and outs.stay())
    world.close()
    world.close()
    sweep.claim(f"hk_close on {what}", world.handle.core is None)


def begun(library):
    world = World(library)
    world.open()
    for line in START:
        world.told(line)
    return world


def state(world):
    """The last answer, and the routes with their counts."""
    return world.given("hk_text"), world.messages()


def call_closed_worlds(sweep):
    library = sweep.library()
    world = World(library)
    claim_closed(sweep, "a world that was never opened", world)
    world.open()
    for line in START:
        world.told(line)
    world.close()
    claim_closed(sweep, "a world that was closed", world)
    sweep.claim("a closed world is opened again", world.open() == OK and world.told(ASK) == b"ok\n")
    world.close()
    sweep.claim("closed worlds leave nothing", library.get("blocks") == 0)


def open_twice(sweep):
    """An open world that is opened stays as it is."""
    library = sweep.library()
    world = begun(library)
    told = world.told(ASK)
    before, core = state(world), world.handle.core
    holds = world.open() == EXISTS and world.handle.core == core and state(world) == before
    sweep.claim("an open world is opened", holds and world.told(ASK) == told)
    world.close()
    sweep.claim("a world that was opened twice leaves nothing", library.get("blocks") == 0)


def is_refused(world, name, *given):
    """Whether a call is refused for its parameters: nothing changes, not even the last answer."""
    told = world.told(ASK)
    before = state(world)
    code = world.call(name, *given)
    return code == INVALID and state(world) == before and world.told(ASK) == told


def is_asked(world, name, *given):
    """Whether a call is a command: it is the last answer then, whatever it answers."""
    world.told(b"# nothing is told of a comment")
    code = world.call(name, *given)
    return code != INVALID and world.given("hk_text") != b""


def is_answered_invalid(world, name, *given):
    """Whether a call is a command that is answered EINVAL, as an ADD without a gateway is."""
    world.told(b"# nothing is told of a comment")
    return world.call(name, *given) == INVALID and world.given("hk_text") == b"err %d\n" % INVALID


def name_of_each_length(sweep):
    """Names and ids have 1 to 8 bytes, of any value."""
    library, outs = sweep.library(), Outs()
    counted = {name: given for name, given in each_call(outs).items() if name.endswith("_n")}
    for name, (_, *others) in counted.items():
        for size in (*range(MOST_NAME + 3), 64, 255, 256, 257, 65_536, 1 << 20):
            world = begun(library)
            given = bytes(range(200, 200 + size)) if size < 20 else bytes(size), *others
            holds = is_asked if 1 <= size <= MOST_NAME else is_refused
            sweep.claim(f"{name} with a name of {size} bytes", holds(world, name, *given))
            world.close()


def numbers_that_say_nothing(sweep):
    """Each kind, each prefix, each length of a link-layer address."""
    library = sweep.library()
    for number in range(256):
        world = begun(library)
        holds = is_asked if number < KINDS else is_refused
        sweep.claim(f"kind {number}", holds(world, "hk_attach_n", b"ed0", number, 6, b""))
        holds = is_asked if number <= MOST_PREFIX else is_refused
        sweep.claim(f"prefix {number}", holds(world, "hk_add_address_n", b"le0", 0x0B000001, number, False, False, 0))
        holds = is_asked if number <= MOST_LINK else is_refused
        sweep.claim(f"link of {number} bytes", holds(world, "hk_attach_n", b"ed1", 0, 6, bytes(number)))
        world.close()


def request_that_says_nothing(sweep):
    """Each number of bits of a mask, each family, each length of a link-layer address and each first two bytes of one."""
    library = sweep.library()
    link = bytes([20, LINK]) + bytes(LINK_BYTES - 2)
    for number in range(256):
        masked = number <= MOST_PREFIX or number == HOST
        asked = {
            ("prefix", number): masked, ("genmask", number): masked, ("family", number): number in (0, INET, LINK),
            ("link_n", number): number == 20, ("length", number): number == 20, ("kind", number): number == LINK,
        }
        for (field, value), is_one in asked.items():
            world, outs = begun(library), Outs()
            request = outs.request
            request.link[:] = link
            if field in ("link_n", "length", "kind"):
                request.family, request.link_n = LINK, 20
            if field in ("length", "kind"):
                request.link[field == "kind"] = value
            else:
                setattr(request, field, value)
            if field == "family":
                request.link_n = 20
            for verb in VERBS:
                lacks_gateway = verb == "add" and request.family == 0
                holds = is_refused if not is_one else is_answered_invalid if lacks_gateway else is_asked
                sweep.claim(f"{verb} with {field} {value}", holds(world, f"hk_{verb}_route_n", b"a", ctypes.byref(request)))
            world.close()


def message_of_each_length(sweep):
    """What is no message is answered so up to 8,192 bytes, is too long beyond, and no command past 8,246."""
    world = begun(sweep.library())
    for size in (*range(0, MOST_WRITE + 4), 65_535, 65_536, 1 << 20):
        world.told(b"# nothing is told of a comment")
        code, text = world.call("hk_write_n", b"a", bytes(size)), world.given("hk_text")
        wanted = INVALID if size <= MOST_MESSAGE or size > MOST_WRITE else TOO_LONG
        shown = b"" if size > MOST_WRITE else b"err %d\n" % wanted
        sweep.claim(f"a message of {size} bytes", (code, text) == (wanted, shown))
        if size in (0, MOST_WRITE, MOST_WRITE + 1):
            code = world.call("hk_write_n", b"z", bytes(size))
            sweep.claim(f"{size} bytes to no socket", code == (INVALID if size > MOST_WRITE else NO_SOCKET))
    world.close()


def line_of_each_length(sweep):
    """A comment, and a line that is no command, at the border of the longest line."""
    world = begun(sweep.library())
    for size in (0, 1, 2, MOST_LINE - 1, MOST_LINE, MOST_LINE + 1, 65_535, 65_536, 1 << 20):
        wanted = (OK, b"") if size <= MOST_LINE else (BAD, b"bad\n")
        sweep.claim(f"a comment of {size} bytes", world.line(b"#" * size) == wanted)
        sweep.claim(f"a bad line of {size} bytes", world.line(b"x" * size) == ((BAD, b"bad\n") if size else (OK, b"")))
    for byte in range(256):
        wanted = (OK, b"") if byte == ord("#") else (BAD, b"bad\n")
        sweep.claim(f"a line of the byte {byte}", world.line(bytes([byte])) == wanted)
    world.close()


def fetch_into_each_room(sweep):
    """What a call gives is copied where all of it fits, and nothing behind it is touched; else nothing is."""
    world = begun(sweep.library())
    for line in (b"dump 100000", b"read a", b"packet 10.9.9.9", b"# nothing"):
        world.told(line)
        for name in ("hk_fetch", "hk_text"):
            whole = world.given(name)
            for size in range(len(whole) + 3):
                room = world.room_out(size)
                at = room.put(bytes([FILLED]) * size)
                fits = size >= len(whole)
                wanted = (whole if fits else b"") + bytes([FILLED]) * (size - len(whole) if fits else size)
                holds = world.call(name, at, size) == len(whole) and room.last(size) == wanted[:size]
                sweep.claim(f"{name} of {line} into {size} bytes", holds)
    world.close()


def worlds_lie_anywhere(sweep):
    """A world is what its field says: it may be moved between calls, and two lie side by side."""
    library = sweep.library()
    world = begun(library)
    told = world.told(ASK)
    moved = World(library)
    moved.handle.core, world.handle = world.handle.core, Handle()
    sweep.claim("a world that was moved", moved.told(ASK) == told)
    moved.close()
    pair = (Handle * 2)()
    one, other = (World(library) for _ in pair)
    one.handle, other.handle = pair
    sweep.claim("two worlds side by side", one.open() == OK and other.handle.core is None and other.open() == OK)
    for line in START:
        one.told(line)
    sweep.claim("the other stays empty", other.told(ASK) == b"ok\n" and len(one.told(ASK)) > 3)
    one.close()
    sweep.claim("the other stays open", other.told(b"dump ask") == b"size 0\n")
    other.close()
    sweep.claim("both leave nothing", library.get("blocks") == 0)


def trials():
    """What is wrong with the library, and the sweep that has to notice it."""
    yield "long-names", name_of_each_length
    yield "reopens", open_twice
    yield "shares", worlds_lie_anywhere
    yield "scribbles", fetch_into_each_room
    yield "forgets", numbers_that_say_nothing
    yield "forgets", name_of_each_length
    yield "welcomes", call_closed_worlds


def jobs():
    yield from ((job,) for job in (
        call_closed_worlds, open_twice, name_of_each_length, numbers_that_say_nothing, request_that_says_nothing, message_of_each_length,
        line_of_each_length, fetch_into_each_room, worlds_lie_anywhere,
    ))
