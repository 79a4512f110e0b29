"""Messages that are written to a socket: whole ones, and such as have something wrong. And what messages show."""
import random
import struct
from dataclasses import dataclass

HEADER, ABOUT_ADDRESS = 76, 20
DST, GATEWAY, NETMASK, GENMASK, IFP, IFA, AUTHOR, BRD = (1 << bit for bit in range(8))
ADD, DELETE, CHANGE, GET, LOCK, OLDADD, NEWADDR, DELADDR = 1, 2, 3, 4, 8, 9, 12, 13
CLONING = 0x100

ADDRESSES = [
    "0.0.0.0", "255.255.255.255", "127.0.0.1", "128.0.0.0", "10.0.0.1", "10.0.0.2", "10.9.9.9", "10.255.255.255",
    "10.1.2.3", "11.0.0.1", "9.10.99.100", "199.200.249.250",
]
PREFIXES = [0, 1, 7, 8, 9, 15, 16, 24, 30, 31, 32]
BORDERS = [0, 1, 2, 0x7F, 0x80, 0xFF, 0x100, 0xFFFF, 0x10000, 0x7FFFFFFF, 0x80000000, 0xFFFFFFFF]


def inet(address):
    return bytes([16, 2, 0, 0, *map(int, address.split(".")), *[0] * 8])


def mask(prefix):
    size = 0 if prefix == 0 else 4 + -(-prefix // 8)
    bits = (0xFFFFFFFF << (32 - prefix)) & 0xFFFFFFFF
    return (bytes([size, 0, 0, 0]) + bits.to_bytes(4, "big"))[: max(size, 4)]


def link(name, address, index=1, size=0):
    text = bytes([0, 18, 0, index, 6, len(name), len(address), 0]) + name + address
    return bytes([max(size, len(text))]) + text[1:].ljust(max(size, len(text)) - 1, b"\0")


def padded(sockaddr):
    return sockaddr + bytes(-len(sockaddr) % 4)


def message(kind, addresses, version=3, index=0, flags=0, pid=0, seq=1, errno=0, use=0, inits=0, metrics=(0,) * 10):
    """A message of this type with these addresses, by their bits in order."""
    body = b"".join(padded(addresses[bit]) for bit in sorted(addresses))
    fields = flags, sum(addresses), pid, seq, errno, use, inits, *metrics
    return struct.pack(">HBBHH17I", HEADER + len(body), version, kind, index, 0, *fields) + body


def about_address(kind, addresses, version=3, index=0, flags=0, padding=0, metric=0):
    """A message about an interface's address."""
    body = b"".join(padded(addresses[bit]) for bit in sorted(addresses))
    fields = version, kind, sum(addresses), flags, index, padding, metric
    return struct.pack(">HBBIIHHI", ABOUT_ADDRESS + len(body), *fields) + body


def sized(text):
    """The message with its own length in its length field."""
    return len(text).to_bytes(2, "big")[: len(text)] + text[2:]


def is_whole(text):
    """Whether there is a header, and the length field says the length."""
    return len(text) >= HEADER and text == sized(text)


def text_of(word):
    """The bytes of a word of a line or of a `msg` line."""
    return b"" if word == b"-" else bytes.fromhex(word.decode())


def message_size(line):
    """How many bytes the message of a `msg` line has."""
    return (len(line.strip()) - len(b"msg ")) // 2


@dataclass(frozen=True)
class Route:
    """A route as a dump shows it: its key, how many bits its mask has (33 without one), and its flags."""

    key: int
    rank: int
    flags: int


def number_of(address):
    return int.from_bytes(bytes(map(int, address.split("."))), "big")


def routes_in(answer):
    """The routes of a dump's answer."""
    routes = []
    for line in answer.splitlines()[:-1]:
        text = text_of(line.split(b" ")[1])
        flags, addrs = struct.unpack_from(">II", text, 8)
        at = HEADER + len(padded(text[HEADER:][: text[HEADER]]))
        at += len(padded(text[at:][: text[at]]))
        bits = text[at:][4 : max(text[at], 4)] if addrs & NETMASK else None
        rank = 33 if bits is None else int.from_bytes(bits, "big").bit_count()
        routes.append(Route(int.from_bytes(text[HEADER + 4 : HEADER + 8], "big"), rank, flags))
    return routes


def best_of(address, routes):
    """The route of the longest mask among those that the address agrees with, or None."""
    agreeing = [route for route in routes if (address ^ route.key) >> max(0, 32 - route.rank) == 0]
    return max(agreeing, key=lambda route: route.rank, default=None)


# Whole messages, each to be cut at every length.
WHOLE = {
    "a GET": message(GET, {DST: inet("10.9.9.9")}),
    "a GET with an interface": message(GET, {DST: inet("10.9.9.9"), IFP: bytes(4), IFA: bytes(4)}),
    "an ADD with each address": message(ADD, {
        DST: inet("30.0.0.0"), GATEWAY: inet("10.0.0.2"), NETMASK: mask(8), GENMASK: mask(24),
        IFP: link(b"le0", b"", size=20), IFA: inet("10.0.0.1"), AUTHOR: inet("10.0.0.3"), BRD: inet("30.255.255.255"),
    }, flags=0x903, inits=0xFF, metrics=range(1, 11)),
    "an unknown type": message(OLDADD, {DST: inet("10.9.9.9"), NETMASK: mask(32)}),
}


def any_link(rng):
    return link(b"le0"[: rng.randrange(4)], bytes(rng.randrange(9)), rng.randrange(4), rng.choice([0, 9, 20, 31, 32]))


def any_sockaddr(rng, bit):
    """What mostly stands at this bit, or an address of another kind; now and then with another byte among its first."""
    kinds = [inet(rng.choice(ADDRESSES)), mask(rng.choice(PREFIXES)), any_link(rng), bytes(4)]
    likely = kinds[1] if bit in (NETMASK, GENMASK) else kinds[0]
    text = bytearray(rng.choice([likely] * 10 + kinds))
    if rng.random() < 0.1:
        text[rng.randrange(min(len(text), 6))] = rng.choice([0, 1, 2, 4, 7, 8, 9, 15, 16, 17, 18, 31, 32, 33, 128, 255])
    return bytes(text)


def any_whole(rng):
    """A message of any type, mostly with a destination, and with numbers at their borders."""
    likely = 0.15 if rng.random() < 0.6 else 0
    bits = [bit for bit in (GATEWAY, NETMASK, GENMASK, IFP, IFA, AUTHOR, BRD) if rng.random() < likely]
    addresses = {bit: any_sockaddr(rng, bit) for bit in ([DST] if rng.random() < 0.95 else []) + bits}
    fields = {name: rng.choice([0, 0, *BORDERS]) for name in ("flags", "pid", "seq", "errno", "use", "inits")}
    fields["flags"] &= rng.choice([0, 0x907, 0xFFFFFFFF])
    return message(
        rng.choice([GET] * 8 + [ADD] * 4 + [DELETE, CHANGE, LOCK, rng.randrange(16), 255]),
        addresses,
        version=rng.choice([3] * 20 + [0, 2, 4, 255]),
        index=rng.choice([0, 1, 2, 0xFFFF]),
        metrics=[rng.choice(BORDERS) for _ in range(10)],
        **fields,
    )


def any_about_address(rng):
    """A message about an interface's address, with any addresses, and with numbers at their borders."""
    addresses = {bit: any_sockaddr(rng, bit) for bit in map((1).__lshift__, range(8)) if rng.random() < 0.4}
    index, padding = (rng.choice([0, 1, 2, 0xFFFF]) for _ in range(2))
    return about_address(rng.choice([NEWADDR, DELADDR]), addresses, 3, index, rng.choice(BORDERS), padding, rng.choice(BORDERS))


def any_message(rng, whole=any_whole):
    """A message of any type, at times cut, longer, or with a byte that is another."""
    text = whole(rng)
    at = rng.randrange(len(text))
    changed = [
        text[:at],
        sized(text[:at]),
        sized(text + bytes(rng.randrange(256) for _ in range(rng.choice([1, 3, 4, 8, 100, 1000, 4000])))),
        text[:at] + bytes([rng.choice([0, 1, 127, 128, 254, 255])]) + text[at + 1 :],
    ]
    return rng.choice(changed) if rng.random() < 0.3 else text


def any_shown(seed):
    """Messages of both layouts, from a fixed seed."""
    rng = random.Random(seed)
    return [any_message(rng, rng.choice([any_whole, any_about_address])) for _ in range(1000)]
