"""The library's calls from Python, by their prototypes in the header, and each line of a script by the call that has
its command."""
import ctypes
import mmap
import re
import socket
import struct
from pathlib import Path

from grammar import is_line
from prototypes import Sources, functions_in_header

OK, NO_MEMORY, EXISTS, INVALID, LEFT_OUT, BAD = 0, 55, 17, 22, 12, 256
HOST, INET, LINK = 33, 2, 18
LINK_BYTES, NAME_BYTES, LINK_ADDRESS_BYTES = 32, 9, 8
# What no call has of a `route` line.
UNTYPED = {b"ifp", b"ifa"}


class Handle(ctypes.Structure):
    _fields_ = [("core", ctypes.c_void_p)]


class Route(ctypes.Structure):
    _fields_ = [
        ("key", ctypes.c_uint32), ("gateway", ctypes.c_uint32), ("index", ctypes.c_uint16), ("flags", ctypes.c_uint16),
        ("rank", ctypes.c_uint8), ("family", ctypes.c_uint8), ("drops", ctypes.c_bool), ("link_n", ctypes.c_uint8),
        ("link", ctypes.c_uint8 * LINK_BYTES),
    ]


METRICS = "mtu", "hopcount", "expire", "recvpipe", "sendpipe", "ssthresh", "rtt", "rttvar"


class Request(ctypes.Structure):
    _fields_ = [
        *((name, ctypes.c_uint32) for name in ("destination", "gateway", "flags", "seq", "inits", "locks", *METRICS)),
        *((name, ctypes.c_uint8) for name in ("prefix", "genmask", "family", "link_n")),
        ("link", ctypes.c_uint8 * LINK_BYTES),
    ]


class Header(ctypes.Structure):
    _fields_ = [
        *((name, ctypes.c_uint32) for name in ("flags", "addrs", "pid", "seq", "error", "use_count", "inits", "locks")),
        *((name, ctypes.c_uint32) for name in (*METRICS, "pksent", "metric")),
        ("index", ctypes.c_uint16), ("kind", ctypes.c_uint8),
    ]


class Sockaddr(ctypes.Structure):
    _fields_ = [
        ("at", ctypes.c_size_t), ("inet", ctypes.c_uint32),
        *((name, ctypes.c_uint8) for name in ("n", "form", "bits", "family")),
    ]


class Interface(ctypes.Structure):
    _fields_ = [
        ("index", ctypes.c_uint16), *((name, ctypes.c_uint8) for name in ("kind", "type_number", "name_n", "link_n")),
        ("name", ctypes.c_uint8 * NAME_BYTES), ("link", ctypes.c_uint8 * LINK_ADDRESS_BYTES),
    ]


class InterfaceAddress(ctypes.Structure):
    _fields_ = [
        ("address", ctypes.c_uint32), ("far", ctypes.c_uint32),
        *((name, ctypes.c_uint8) for name in ("prefix", "cloning", "routed")),
    ]


class SocketTold(ctypes.Structure):
    _fields_ = [
        ("lost", ctypes.c_uint64), ("waiting", ctypes.c_size_t), ("pid", ctypes.c_uint32),
        *((name, ctypes.c_uint8) for name in ("protocol", "loopback", "id_n")), ("id", ctypes.c_uint8 * NAME_BYTES),
    ]


class Entry(ctypes.Structure):
    _fields_ = [
        ("route", Route), *((name, ctypes.c_uint32) for name in ("use_count", "locks", *METRICS, "pksent")),
        ("genmask", ctypes.c_uint8),
    ]


TYPES = {
    "void": None, "bool": ctypes.c_bool, "uint8_t": ctypes.c_uint8, "uint16_t": ctypes.c_uint16,
    "uint32_t": ctypes.c_uint32, "size_t": ctypes.c_size_t, "uint64_t *": ctypes.POINTER(ctypes.c_uint64), "hk_world *": ctypes.POINTER(Handle),
    "hk_route *": ctypes.POINTER(Route), "const uint8_t *": ctypes.c_void_p, "uint8_t *": ctypes.c_void_p,
    "size_t *": ctypes.POINTER(ctypes.c_size_t), "const hk_request *": ctypes.POINTER(Request),
    **dict.fromkeys((
        "hk_header *", "hk_sockaddr *", "hk_interface *", "hk_ifaddr *", "hk_socket *", "hk_entry *",
    ), ctypes.c_void_p),
}


class Library:
    """The archive as a shared library over the counted heap."""

    def __init__(self, path):
        self.loaded = ctypes.CDLL(str(path))
        self.functions = functions_in_header(Sources.of_today().header)
        for name, (result, parameters) in self.functions.items():
            function = getattr(self.loaded, name)
            function.restype, function.argtypes = TYPES[result], [TYPES[kind] for kind, _ in parameters]

    def make(self, name, handle, *given):
        return getattr(self.loaded, name)(ctypes.byref(handle), *given)

    def world(self):
        """A world of this library, which is closed."""
        return World(self)

    def show(self, *given):
        """Calls hk_show, which has no world."""
        return self.loaded.hk_show(*given)

    def convert(self, *given):
        """Calls hk_convert, which has no world."""
        return self.loaded.hk_convert(*given)

    def header(self, *given):
        """Calls hk_message_header, which has no world."""
        return self.loaded.hk_message_header(*given)

    def address(self, *given):
        """Calls hk_message_address, which has no world."""
        return self.loaded.hk_message_address(*given)

    def of_worlds(self):
        """The names of the functions over a world."""
        return {name for name, (_, parameters) in self.functions.items() if parameters[0][0] == "hk_world *"}

    def counter(self, name):
        return ctypes.c_ulong.in_dll(self.loaded, f"heap_{name}")

    def get(self, name):
        return self.counter(name).value

    def set(self, **counters):
        for name, value in counters.items():
            self.counter(name).value = value


PAGE = mmap.PAGESIZE
libc = ctypes.CDLL(None, use_errno=True)


class Room:
    """Room for bytes, and behind it a page that nobody may read or write."""

    def __init__(self, most):
        self.size = -(-most // PAGE) * PAGE
        self.map = mmap.mmap(-1, self.size + PAGE)
        self.at = ctypes.addressof(ctypes.c_char.from_buffer(self.map))
        if libc.mprotect(ctypes.c_void_p(self.at + self.size), ctypes.c_size_t(PAGE), 0):
            raise OSError("mprotect")

    def end(self, n):
        """Where the last n bytes begin."""
        return self.at + self.size - n

    def put(self, data):
        """Puts bytes there, so that the one behind them can't be read."""
        self.map[self.size - len(data) : self.size] = data
        return self.end(len(data))

    def last(self, n):
        return self.map[self.size - n : self.size]


def number_of(address):
    return struct.unpack(">I", socket.inet_aton(address))[0]


def address_of(number):
    return socket.inet_ntoa(struct.pack(">I", number))


def bytes_of(text):
    return b"" if text == "-" else bytes.fromhex(text)


KINDS = {"broadcast": 0, "loopback": 1, "ptp": 2}


class World:
    """A world of the library. What a call takes as bytes with their number is given as bytes."""

    def __init__(self, library):
        self.library, self.handle, self.rooms = library, Handle(), {}

    def call(self, name, *given):
        """Makes a call; bytes stand behind each other in memory that ends where nobody may read."""
        made, place = [], 0
        for each in given:
            if isinstance(each, bytes):
                if len(each) > self.rooms.setdefault(place, Room(1 << 16)).size:
                    self.rooms[place] = Room(len(each))
                made += [self.rooms[place].put(each), len(each)]
                place += 1
            else:
                made.append(each)
        return self.library.make(name, self.handle, *made)

    def open(self):
        return self.call("hk_open")

    def close(self):
        self.call("hk_close")

    def given(self, name):
        """What hk_fetch or hk_text gives."""
        n = self.call(name, self.room_out(1).end(0), 0)
        room = self.room_out(n)
        self.call(name, room.end(n), n)
        return room.last(n)

    def room_out(self, n):
        if n > self.rooms.setdefault("out", Room(1 << 16)).size:
            self.rooms["out"] = Room(n)
        return self.rooms["out"]

    def messages(self):
        rest, found = self.given("hk_fetch"), []
        while rest:
            n = struct.unpack_from(">H", rest)[0]
            found.append(rest[:n])
            rest = rest[n:]
        return found

    def line(self, line):
        """A line by hk_line, and its text by hk_text."""
        code = self.call("hk_line", line)
        return code, self.given("hk_text")

    def told(self, line):
        """A line by the call of its command, and what a transcript has of what that gives."""
        if not is_line(line) or not UNTYPED.isdisjoint(line.split(b" ")):
            code = self.call("hk_line", line)
            return b"bad\n" if code == BAD else text_of(code)
        command, *words = line.decode().split(" ")
        return COMMANDS[command](self, words)


def text_of(code):
    return b"err %d\n" % code if code else b"ok\n"


def with_messages(world, code):
    shown = world.messages() if code in (OK, LEFT_OUT) else []
    return b"".join(b"msg %s\n" % message.hex().encode() for message in shown) + text_of(code)


def sized(code, size):
    return text_of(code) if code else b"size %d\n" % size.value


def attach(world, words):
    name, kind, number, link = words
    return text_of(world.call("hk_attach_n", name.encode(), KINDS[kind], int(number), bytes_of(link)))


def add_address(world, words):
    name, place, *others = words
    address, prefix = place.split("/")
    far = others[1] if others[:1] == ["to"] else None
    given = number_of(address), int(prefix), others[-1:] == ["cloning"], far is not None, number_of(far or "0.0.0.0")
    return text_of(world.call("hk_add_address_n", name.encode(), *given))


def remove_address(world, words):
    return text_of(world.call("hk_remove_address_n", words[0].encode(), number_of(words[1])))


def listen(world, words):
    protocol = 0 if words[2] == "any" else int(words[2])
    return text_of(world.call("hk_listen_n", words[0].encode(), int(words[1]), protocol))


def shut(world, words):
    return text_of(world.call("hk_shut_n", words[0].encode()))


def loopback(world, words):
    return text_of(world.call("hk_loopback_n", words[0].encode(), words[1] == "on"))


def write(world, words):
    return text_of(world.call("hk_write_n", words[0].encode(), bytes_of(words[1])))


def read(world, words):
    return with_messages(world, world.call("hk_read_n", words[0].encode()))


def lost(world, words):
    size = ctypes.c_uint64()
    return sized(world.call("hk_lost_n", words[0].encode(), ctypes.byref(size)), size)


def packet(world, words):
    route = Route()
    code = world.call("hk_packet", number_of(words[0]), ctypes.byref(route))
    if code:
        return text_of(code)
    is_inet, link = route.family == INET, bytes(route.link)
    gateway = address_of(route.gateway) if is_inet else "link:" + link[: route.link_n].hex()
    if (route.link_n == 0) != is_inet or any(link[route.link_n :]) or (route.gateway and not is_inet):
        return b"no route\n"
    rank = "-" if route.rank == HOST else route.rank
    fate = "drop" if route.drops else "via"
    return f"{fate} {address_of(route.key)} {rank} {gateway} {route.index} {route.flags:08x}\n".encode()


def redirect(world, words):
    return text_of(world.call("hk_redirect", *map(number_of, words)))


def losing(world, words):
    return text_of(world.call("hk_losing", number_of(words[0])))


def dump_by(world, has_filter, flags, room):
    if room == "ask":
        size = ctypes.c_uint64()
        return sized(world.call("hk_dump_size", has_filter, flags, ctypes.byref(size)), size)
    return with_messages(world, world.call("hk_dump", has_filter, flags, int(room)))


def dump(world, words):
    return dump_by(world, False, 0, words[0])


def flags(world, words):
    return dump_by(world, True, int(words[0], 16), words[1])


def request_of(number, destination, options):
    """The request that says what these words of a `route` line say."""
    address, _, prefix = {"default": "0.0.0.0/0"}.get(destination, destination).partition("/")
    request = Request(destination=number_of(address), seq=int(number), prefix=int(prefix or HOST), genmask=HOST)
    for name, value in zip(options[::2], options[1::2]):
        if name in METRICS:
            setattr(request, name, int(value))
            request.inits |= 1 << METRICS.index(name)
        elif name == "inits":
            request.inits |= int(value, 16)
        elif name in ("flags", "locks"):
            setattr(request, name, int(value, 16))
        elif name == "genmask":
            request.genmask = int(value)
        elif value.startswith("link:"):
            link = bytes.fromhex(value.removeprefix("link:"))
            request.family, request.link_n = LINK, len(link)
            request.link[: len(link)] = link
        else:
            request.family, request.gateway = INET, number_of(value)
    return request


def route(world, words):
    name, number, verb, destination, *options = words
    request = request_of(number, destination, options)
    return text_of(world.call(f"hk_{verb}_route_n", name.encode(), ctypes.byref(request)))


COMMANDS = {
    "route": route, "if": attach, "addr": add_address, "unaddr": remove_address, "open": listen, "close": shut, "loopback": loopback,
    "write": write, "read": read, "lost": lost, "packet": packet, "redirect": redirect, "losing": losing, "dump": dump,
    "flags": flags,
}
