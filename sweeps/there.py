"""What is in a world, as hk_interface_of, hk_next_address, hk_socket_at and hk_route_of tell it, against what a second reading
has of the same lines and of a dump; and that telling changes nothing."""
import ctypes
import struct

from by_calls import opened, steps_of
from calls import HOST, INVALID, KINDS, LINK, OK, Entry, Interface, InterfaceAddress, Room, SocketTold, number_of
from misuse import FILLED
from parts import INET, METRICS, form_of, header_of, slots_of

NO_ROUTE, NO_INTERFACE, NO_SOCKET, EXISTS, NO_ADDRESS = 3, 6, 9, 17, 49
DST, GATEWAY, NETMASK, GENMASK = 1, 2, 4, 8
BLACKHOLE = 0x1000
MOST_INDEX, MOST_SIZE, MOST_DUMP = 0xFFFF, (1 << 64) - 1, 1 << 20
# Routes are told after each so many lines.
LINES = 16


class There:
    """The calls over a world; what they write to was filled before."""

    def __init__(self, world):
        self.world, self.out = world, Room(1 << 12)

    def found(self, name, kind, *given):
        """The fields, or the code where nothing is told and each byte stays."""
        room = self.out.put(bytes([FILLED]) * ctypes.sizeof(kind))
        code = self.world.call(name, *given, room)
        told = self.out.last(ctypes.sizeof(kind))
        if code != OK:
            return code if set(told) == {FILLED} else None
        return kind.from_buffer_copy(told)

    def interface(self, index):
        return self.found("hk_interface_of", Interface, index)

    def address(self, index, place):
        """The address, and the place behind it."""
        cell = ctypes.c_size_t(place)
        told = self.found("hk_next_address", InterfaceAddress, index, ctypes.byref(cell))
        return told, cell.value

    def socket(self, place):
        return self.found("hk_socket_at", SocketTold, place)

    def entry(self, key, rank):
        return self.found("hk_route_of", Entry, key, rank)

    def addresses(self, index):
        """Those of an interface, and why there are no more."""
        found, (told, place) = [], self.address(index, 0)
        while isinstance(told, InterfaceAddress):
            found.append((told.address, told.far, told.prefix, bool(told.cloning), bool(told.routed)))
            told, place = self.address(index, place)
        return found, told

    def interfaces(self):
        index, found = 1, []
        while isinstance(told := self.interface(index), Interface):
            whole = told.index == index and not any(bytes(told.name)[told.name_n :] + bytes(told.link)[told.link_n :])
            name, link = bytes(told.name)[: told.name_n], bytes(told.link)[: told.link_n]
            found.append((whole, name, told.kind, told.type_number, link, self.addresses(index)))
            index += 1
        return found, told

    def sockets(self):
        place, found = 0, []
        while isinstance(told := self.socket(place), SocketTold):
            whole = not any(bytes(told.id)[told.id_n :])
            found.append((whole, bytes(told.id)[: told.id_n], told.pid, told.protocol, bool(told.loopback)))
            place += 1
        return found, told

    def counts(self):
        """What waits for each socket, and what it lost."""
        places = range(len(self.sockets()[0]))
        return {bytes(told.id)[: told.id_n]: (told.waiting, told.lost) for told in map(self.socket, places)}


class Lines:
    """The interfaces and sockets that answered lines leave, in a second reading."""

    def __init__(self):
        self.interfaces, self.sockets = [], []

    def take(self, line, answer):
        words = line.decode("latin-1").split(" ")
        taken = {"if": self.attach, "addr": self.add, "unaddr": self.remove, "open": self.open, "close": self.close}
        if words[0] in taken and answer == b"ok\n" or words[0] == "addr" and answer == b"err %d\n" % EXISTS:
            taken[words[0]](answer, *words[1:])
        elif words[0] == "loopback" and answer == b"ok\n":
            self.of_id(words[1])["loopback"] = words[2] == "on"

    def of_name(self, name):
        return next(each for each in self.interfaces if each["name"] == name.encode())

    def of_id(self, name):
        return next(each for each in self.sockets if each["id"] == name.encode())

    def attach(self, answer, name, kind, number, link):
        link = b"" if link == "-" else bytes.fromhex(link)
        self.interfaces.append(
            {"name": name.encode(), "kind": KINDS[kind], "type": int(number), "link": link, "addresses": []})

    def add(self, answer, name, place, *others):
        address, prefix = place.split("/")
        number, bits, interface = number_of(address), int(prefix), self.of_name(name)
        far = [number | (1 << 32 - bits) - 1, number, number_of(others[1]) if others[:1] == ("to",) else 0]
        own = number, far[interface["kind"]], bits, others[-1:] == ("cloning",), answer == b"ok\n"
        interface["addresses"].append(own)

    def remove(self, answer, name, address):
        interface = self.of_name(name)
        interface["addresses"] = [own for own in interface["addresses"] if own[0] != number_of(address)]

    def open(self, answer, name, pid, protocol):
        family = 0 if protocol == "any" else int(protocol)
        self.sockets.append({"id": name.encode(), "pid": int(pid), "protocol": family, "loopback": True})

    def close(self, answer, name):
        self.sockets.remove(self.of_id(name))

    def told_interfaces(self):
        return [
            (True, i["name"], i["kind"], i["type"], i["link"], (i["addresses"], NO_ADDRESS)) for i in self.interfaces
        ], NO_INTERFACE

    def told_sockets(self):
        return [(True, s["id"], s["pid"], s["protocol"], s["loopback"]) for s in self.sockets], NO_SOCKET


def mask_bits(slots, bit, without):
    """The bits of a mask of a message, or what stands for none."""
    return form_of(bit, slots[bit][1])[2] if bit in slots else without


def routes_of(world):
    """Each route of a dump by its pair: the fields that hk_route_of has to tell of it."""
    world.call("hk_dump", False, 0, MOST_DUMP)
    found = {}
    for message in world.messages():
        header, slots = header_of(message), slots_of(message)
        key, rank = form_of(DST, slots[DST][1])[1], mask_bits(slots, NETMASK, HOST)
        form, inet, _ = form_of(GATEWAY, slots[GATEWAY][1])
        link = b"" if form == INET else slots[GATEWAY][1]
        numbers = {name: header[name] for name in ("use_count", "locks", *METRICS)}
        found[key, rank] = {
            "key": key, "rank": rank, "gateway": inet, "family": 2 if form == INET else LINK, "index": header["index"],
            "flags": header["flags"], "drops": bool(header["flags"] & BLACKHOLE), "link_n": len(link),
            "link": link.ljust(32, b"\0"), "genmask": mask_bits(slots, GENMASK, HOST), **numbers,
        }
    return found


def fields_of(entry):
    """The fields that hk_route_of told."""
    if not isinstance(entry, Entry):
        return entry
    route, others = entry.route, {name for name, _ in Entry._fields_} - {"route"}
    told = {name: getattr(route, name) for name, _ in route._fields_}
    return {**told, "link": bytes(route.link), "drops": bool(route.drops), **{name: getattr(entry, name) for name in others}}


def tell_routes(sweep, what, there):
    """Each route of a dump is told by its pair, and none of a pair beside it."""
    routes = routes_of(there.world)
    told = {pair: fields_of(there.entry(*pair)) for pair in routes}
    beside = {(key, (rank + 1) % 34) for key, rank in routes} | {(key ^ 1, rank) for key, rank in routes}
    none = all(there.entry(*pair) == NO_ROUTE for pair in beside - set(routes))
    sweep.claim(f"{what}: routes", told == routes and none)


def last_answer(world):
    return world.given("hk_fetch"), world.given("hk_text")


def tell_what_is_there(sweep, example):
    """Along an example: interfaces, addresses and sockets after each line, and routes now and then."""
    world, lines = opened(sweep.library()), Lines()
    there, wrong = There(world), []
    for place, (line, answer) in enumerate(steps_of(example)):
        waited = there.counts()
        same = world.told(line) == answer
        lines.take(line, answer)
        before = last_answer(world)
        same = same and (there.interfaces(), there.sockets()) == (lines.told_interfaces(), lines.told_sockets())
        if line.startswith(b"read ") and line[5:] in waited:
            same = same and len(before[0]) == waited[line[5:]][0] and there.counts()[line[5:]][0] == 0
        if line.startswith(b"lost ") and line[5:] in waited:
            same = same and answer == b"size %d\n" % waited[line[5:]][1]
        if not same or last_answer(world) != before:
            wrong.append(line[:80])
        if place % LINES == 0:
            tell_routes(sweep, f"{example.name}, {line[:80]}", there)
    tell_routes(sweep, f"{example.name}, at its end", there)
    world.close()
    sweep.claim(f"{example.name}: what is there, but after {wrong}", not wrong)


def ask_for_what_is_not(sweep):
    """A closed world has nothing; and so it is past the last, and with numbers that say nothing."""
    world = sweep.library().world()
    there = There(world)
    asked = lambda: [
        there.interface(1), there.interface(0), there.interface(MOST_INDEX), there.address(1, 0)[0],
        there.address(MOST_INDEX, 0)[0], there.address(1, MOST_SIZE)[0], there.socket(0), there.socket(MOST_SIZE),
        there.entry(0, 0), there.entry(0, 34), there.entry(0, 255),
    ]
    sweep.claim("a closed world has nothing", asked() == [INVALID] * 11)
    world.open()
    nothing = [NO_INTERFACE] * 6 + [NO_SOCKET] * 2 + [NO_ROUTE, INVALID, INVALID]
    sweep.claim("an empty world has nothing", asked() == nothing)
    world.line(b"if le0 broadcast 6 -")
    sweep.claim("an interface without an address", there.address(1, 0) == (NO_ADDRESS, 0))
    sweep.claim("a place far behind the last", there.address(1, MOST_SIZE) == (NO_ADDRESS, MOST_SIZE))
    sweep.claim("no interface, and the place stays", there.address(2, 7) == (NO_INTERFACE, 7))
    world.close()


def trials(examples):
    """What is wrong with the library, and the sweep that has to notice it."""
    yield "skips", tell_what_is_there, examples["daemons-day"]
    yield "widens", tell_what_is_there, examples["daemons-day"]
    yield "scribbles", ask_for_what_is_not
    yield "welcomes", ask_for_what_is_not


def jobs(examples):
    yield from ((tell_what_is_there, example) for example in examples.values())
    yield (ask_for_what_is_not,)
