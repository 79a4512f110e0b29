"""Worlds of the package for Python that are told lines, each by the typed call that has its command, over a heap that was
loaded before."""
import ctypes
import gc
from ipaddress import IPv4Address
from pathlib import Path

from calls import BAD, LEFT_OUT, OK, text_of
from grammar import is_line

import hoiskend
from hoiskend import RTA, RTM, RTV, Kind, LinkAddress, Message, Metrics, Refused, Socket, World

KINDS = {"broadcast": Kind.BROADCAST, "loopback": Kind.LOOPBACK, "ptp": Kind.POINTOPOINT}


class Library:
    """The shared object that the package loaded, over the heap that is asked from within it."""

    def __init__(self, **wrong):
        self.heap = ctypes.CDLL(None)
        at = [line.split()[0].split("-") for line in Path("/proc/self/maps").read_text().splitlines() if is_object(line)]
        places = [int(place, 16) for places in at for place in places]
        gc.collect()
        self.set(**{name: 0 for name in ("refuse_at", "refuse_from", "asked", "refused", "blocks", "leaks", "deaf")})
        self.set(**{"from": min(places), "to": max(places)}, **wrong)

    def counter(self, name):
        return ctypes.c_ulong.in_dll(self.heap, f"heap_{name}")

    def get(self, name):
        return self.counter(name).value

    def set(self, **counters):
        for name, value in counters.items():
            self.counter(name).value = value

    def world(self):
        return Told(self)


def is_object(line):
    """Whether a line of the process's map is of the shared object."""
    words = line.split()
    return len(words) > 5 and Path(words[5]).name.startswith("libhoiskend.so")


def answered(call, *given, **named):
    """The code that a call answers, and what it gives where it is done."""
    try:
        return OK, call(*given, **named)
    except Refused as refused:
        return int(refused.errno), None
    except hoiskend.BadLine:
        return BAD, None


class Told:
    """A world of the package that is told lines, with the names that by_calls has for it."""

    def __init__(self, library):
        self.library, self.world = library, None

    def open(self):
        code, self.world = answered(World)
        return code

    def close(self):
        self.world.close()

    def given(self, name):
        return self.world.text().encode()

    def line(self, line):
        code, _ = answered(self.world.line, line)
        return code, self.given("hk_text")

    def told(self, line):
        if not is_line(line):
            return b"bad\n" if self.line(line)[0] == BAD else b"no answer\n"
        command, *words = line.decode().split(" ")
        return COMMANDS[command](self.world, words)


def done(call, *given, **named):
    return text_of(answered(call, *given, **named)[0])


def sized(call, *given):
    code, size = answered(call, *given)
    return text_of(code) if code else b"size %d\n" % size


def shown(found):
    return b"".join(b"msg %s\n" % bytes(message).hex().encode() for message in found)


def bytes_of(text):
    return b"" if text == "-" else bytes.fromhex(text)


def socket_of(world, id):
    return Socket(world, id.encode())


def attach(world, words):
    name, kind, number, link = words
    return done(world.attach, name, KINDS[kind], int(number), bytes_of(link))


def add_address(world, words):
    name, place, *others = words
    far = others[1] if others[:1] == ["to"] else None
    return done(world.add_address, name, place, cloning=others[-1:] == ["cloning"], far=far)


def listen(world, words):
    return done(world.listen, words[0], int(words[1]), 0 if words[2] == "any" else int(words[2]))


def write(world, words):
    return done(socket_of(world, words[0]).write, bytes_of(words[1]))


def gate(word):
    return LinkAddress(bytes.fromhex(word[5:])) if word.startswith("link:") else word


VERBS = {verb.lower(): RTM[verb] for verb in ("ADD", "DELETE", "CHANGE", "GET", "LOCK")}
GATES = {"via": RTA.GATEWAY, "ifp": RTA.IFP, "ifa": RTA.IFA}
BITS_OF_METRICS = {
    "mtu": RTV.MTU, "hopcount": RTV.HOPCOUNT, "expire": RTV.EXPIRE, "recvpipe": RTV.RPIPE, "sendpipe": RTV.SPIPE,
    "ssthresh": RTV.SSTHRESH, "rtt": RTV.RTT, "rttvar": RTV.RTTVAR,
}
IN_HEXADECIMAL = {"flags", "inits", "locks"}
ALL_ONES = 0xFFFFFFFF


def number_of(option, word):
    return int(word, 16 if option in IN_HEXADECIMAL else 10)


def message_of(seq, verb, place, options):
    """The message of the words of a `route` line."""
    address, *prefix = place.split("/")
    addresses, flags, inits, metrics = {RTA.DST: address}, 0, 0, {}
    if prefix:
        addresses[RTA.NETMASK] = int(prefix[0])
    for option, word in options.items():
        if option in GATES:
            addresses[GATES[option]] = gate(word)
        elif option == "genmask":
            addresses[RTA.GENMASK] = int(word)
        elif option == "flags":
            flags = number_of(option, word)
        elif option == "inits":
            inits |= number_of(option, word)
        else:
            metrics[option] = number_of(option, word)
            inits |= BITS_OF_METRICS.get(option, 0)
    return Message.request(VERBS[verb], addresses, flags=flags, seq=int(seq), inits=inits, metrics=Metrics(**metrics))


def has_call(verb, place, options):
    """Whether a typed request has all that a line says: a key without bits past its mask, no interface, and a gateway where the
    verb takes one."""
    address, _, bits = place.partition("/")
    is_key = not bits or int(IPv4Address(address)) & ALL_ONES >> int(bits) == 0
    return is_key and not {"ifp", "ifa"} & options.keys() and (verb in ("add", "change") or "via" not in options)


def route(world, words):
    id, seq, verb, dest, *others = words
    socket, options = socket_of(world, id), dict(zip(others[::2], others[1::2]))
    place = "0.0.0.0/0" if dest == "default" else dest
    if not has_call(verb, place, options):
        return done(socket.write, message_of(seq, verb, place, options))
    gateway = [gate(options.pop("via"))] if "via" in options else []
    named = {option: number_of(option, word) for option, word in options.items()}
    return done(getattr(socket, f"{verb}_route"), place, *gateway, seq=int(seq), **named)


def read(world, words):
    code, found = answered(socket_of(world, words[0]).read)
    return shown(found or []) + text_of(code)


def packet(world, words):
    code, found = answered(world.packet, words[0])
    if code:
        return text_of(code)
    gateway, is_inet = found.gateway, isinstance(found.gateway, IPv4Address)
    gateway = gateway if is_inet else f"link:{bytes(gateway).hex()}"
    rank = "-" if found.prefix is None else found.prefix
    fate = "drop" if found.drops else "via"
    return f"{fate} {found.key} {rank} {gateway} {found.index} {int(found.flags):08x}\n".encode()


def dump_by(world, flags, room):
    if room == "ask":
        return sized(world.dump_size, flags)
    code, found = answered(world.dump, int(room), flags)
    return text_of(code) if code else shown(found.messages) + text_of(OK if found.is_whole else LEFT_OUT)


COMMANDS = {
    "if": attach, "addr": add_address, "open": listen, "write": write, "route": route, "read": read, "packet": packet,
    "unaddr": lambda world, words: done(world.remove_address, *words),
    "close": lambda world, words: done(socket_of(world, words[0]).close),
    "loopback": lambda world, words: done(socket_of(world, words[0]).loopback, words[1] == "on"),
    "lost": lambda world, words: sized(socket_of(world, words[0]).lost),
    "redirect": lambda world, words: done(world.redirect, *words),
    "losing": lambda world, words: done(world.losing, *words),
    "dump": lambda world, words: dump_by(world, None, words[0]),
    "flags": lambda world, words: dump_by(world, int(words[0], 16), words[1]),
}
