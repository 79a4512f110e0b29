"""Questions of a world and their answers, in a second reading, of the messages of a dump: the table, its tree, and the way to the
best route of an address; and the interfaces and sockets that lines leave."""
import struct
from dataclasses import dataclass
from itertools import groupby

from messages import GATEWAY, HEADER, NETMASK, padded
from reading import FLAGS, mask_of

HOST = 33
LETTERS = "UGHRDMdmCXLSB-21"
KINDS = ["broadcast", "loopback", "point-to-point"]
COLUMNS = "{:<18} {:<17} {:<8} {:<8} {}\n"
HELP = """\
if NAME broadcast|loopback|ptp TYPE HEX: attaches an interface
addr NAME A/P [to A] [cloning]: gives an interface an address
unaddr NAME A: removes an address of an interface
open ID PID any|PROTOCOL: opens a routing socket
loopback ID on|off: whether a socket hears the replies to its own writes
close ID: closes a socket
read ID: takes the messages that wait for a socket
lost ID: how many messages a socket has lost
write ID HEX: writes bytes to a socket
route ID SEQ VERB DEST [OPTION WORD]..: writes the message of these words to a socket
packet A: looks up the route of a packet to an address
redirect A GATEWAY AUTHOR: follows a redirect of an address to a gateway
losing A: tells that the route of an address seems dead, and takes it away if a redirect made it
dump ask|all|N: dumps the table into N bytes, or says how many to ask for
flags FLAGS ask|all|N: the same of the routes that have one of these flags
?table       the routes, in the way of netstat -rn
?tree        the radix tree of the routes
?find A      how the best route of an address is found
?why A       which routes an address agrees with
?interfaces  the interfaces, with their addresses
?sockets     the open routing sockets
?help        this
?help VERB   how a line with this verb is written, word by word
?quit        the end
"""


def dotted(number):
    return ".".join(str(number >> shift & 255) for shift in (24, 16, 8, 0))


def named(flags):
    """Flags by their names."""
    return ",".join(name for bit, name in enumerate(FLAGS) if flags >> bit & 1 and name != "-") or "none"


def destination(key, rank):
    if rank == HOST:
        return dotted(key)
    return "default" if (key, rank) == (0, 0) else f"{dotted(key)}/{rank}"


@dataclass(frozen=True)
class Route:
    """A route as the message of a dump tells it."""

    key: int
    rank: int
    gateway: str
    flags: int
    uses: int
    index: int

    def name(self):
        return destination(self.key, self.rank)

    def is_for(self, address):
        bits = 32 if self.rank == HOST else self.rank
        return (self.key ^ address) >> 32 - bits == 0


def gateway_of(text):
    """An IPv4 address, or the bytes of a link-layer address."""
    return dotted(int.from_bytes(text[4:8], "big")) if text[1] == 2 else f"link:{text[: text[0]].hex()}"


def route_of(message):
    index, flags, addrs, uses = struct.unpack_from(">4xH2xII12xI", message)
    at, slots = HEADER, {}
    for bit in (1, GATEWAY, NETMASK):
        if addrs & bit:
            slots[bit] = message[at : at + len(padded(message[at : at + max(message[at], 4)]))]
            at += len(slots[bit])
    masks = [rank for rank in range(33) if NETMASK in slots and slots[NETMASK] == mask_of(rank)]
    key, rank = int.from_bytes(slots[1][4:8], "big"), masks[0] if masks else HOST
    return Route(key, rank, gateway_of(slots[GATEWAY]), flags & 0xFFFF, uses, index)


# ---- the table and its tree


def toward(route):
    """Where a route leads: RTF_GATEWAY says that it has a gateway."""
    return f" to {route.gateway}" if route.flags & 2 else " straight there"


def table(routes, names):
    lines = [COLUMNS.format("Destination", "Gateway", "Flags", "Use", "Interface")]
    for route in routes:
        letters = "".join(letter for bit, letter in enumerate(LETTERS) if route.flags >> bit & 1 and letter != "-")
        lines.append(COLUMNS.format(route.name(), route.gateway, letters, route.uses, names[route.index]))
    return "".join(lines)


@dataclass(frozen=True)
class Node:
    """A bit node with the networks whose masks it lists and its sides, or a leaf with the routes of one key."""

    bit: int
    listed: list
    sides: tuple

    def line(self):
        if not self.sides:
            return " ".join(["leaf", *(route.name() for route in self.listed)]) + "\n"
        masks = ", masks " + " ".join(route.name() for route in self.listed) if self.listed else ""
        return f"bit {self.bit}{masks}\n"


def bit_of(number, bit):
    return number >> 31 - bit & 1


def node_of(routes, least=0):
    """The tree of routes, whose masks up to a length are listed above. Below, the first bit in which two keys differ is tested."""
    keys = {route.key for route in routes}
    if len(keys) == 1:
        return Node(32, routes, ())
    bit = 32 - (min(keys) ^ max(keys)).bit_length()
    lengths = {route.rank: route for route in reversed(routes) if least <= route.rank <= bit}
    sides = tuple([route for route in routes if bit_of(route.key, bit) == side] for side in (0, 1))
    listed = [lengths[length] for length in sorted(lengths, reverse=True)]
    return Node(bit, listed, tuple(node_of(side, bit + 1) for side in sides))


def drawn(node, before=""):
    text = node.line()
    for side, below in enumerate(node.sides):
        text += f"{before}|-{side}- " + drawn(below, before + ("     " if side else "|    "))
    return text


def tree(routes):
    return drawn(node_of(routes)) if routes else "the table is empty\n"


def nodes_and_edges(node, name):
    yield f'{name} [label="{node.line()}"]\n'
    for side, below in enumerate(node.sides):
        yield f"{name} -> {name}{side} [label={side}]\n"
        yield from nodes_and_edges(below, f"{name}{side}")


def graph(routes):
    """The tree in the language of Graphviz."""
    tree_of = "node [shape=box]\n" + "".join(nodes_and_edges(node_of(routes), "n")) if routes else ""
    return "digraph tree {\n" + tree_of + "}\n"


def boxes(node, row=0):
    """Each box with its row, from left to right: a bit node stands between its sides."""
    zero, one = node.sides or (None, None)
    if zero:
        yield from boxes(zero, row + 1)
    yield node, row
    if one:
        yield from boxes(one, row + 1)


def drawn_boxes(node, points, label=""):
    """The edge to each side of a node with what is beneath it, and the node's own box, at points by the nodes' identities."""
    for below, side, x in zip(node.sides, "01", (-8, 8)):
        yield f'<path d="M{points[id(node)]} {points[id(below)]}"/>\n'
        yield from drawn_boxes(below, points, f'<text x="{x}" y="-3">{side}</text>')
    lines = [f"bit {node.bit}"] * bool(node.sides) + [route.name() for route in node.listed]
    corners = ' rx="7"' if node.sides else ""
    yield f'<g transform="translate({points[id(node)]})">{label}'
    yield f'<rect x="-47" width="94" height="{len(lines)}4"{corners}/><text>'
    yield "".join(f'<tspan x="0" dy="10">{line}</tspan>' for line in lines) + "</text></g>\n"


def svg(routes):
    """The tree as a picture, a hundred for each column and row."""
    first = '<svg xmlns="http://www.w3.org/2000/svg" viewBox='
    if not routes:
        return f'{first}"0 0 200 50"><text x="20" y="30">the table is empty</text></svg>\n'
    root = node_of(routes)
    placed = list(boxes(root))
    points = {id(node): f"{column}00,{row}00" for column, (node, row) in enumerate(placed)}
    size = f"{len(placed) + 1}00 {max(row for _, row in placed) + 4}00"
    text = f'{first}"-100 -50 {size}" font-family="monospace" font-size="8" text-anchor="middle">\n'
    text += "<style>rect,path{fill:white;stroke:black}</style>\n"
    return text + "".join(drawn_boxes(root, points)) + "</svg>\n"


def tried(address, routes):
    """Of routes one after another whether they agree, up to the first that does; and that one."""
    text = ""
    for route in routes:
        agrees = route.is_for(address)
        text += f"  {route.name()} {'agrees' if agrees else 'does not agree'}\n"
        if agrees:
            return text, route
    return text, None


def way(address, node):
    """Down to a leaf, and up until a route agrees."""
    if not node.sides:
        text, best = tried(address, node.listed)
        return node.line() + text, best
    side = bit_of(address, node.bit)
    below, best = way(address, node.sides[side])
    text = f"bit {node.bit} of {dotted(address)} is {side}: down on the {side} side\n" + below
    if best:
        return text, best
    up, best = tried(address, node.listed)
    return f"{text}up to {node.line()}{up}", best


def find(address, routes):
    text, best = way(address, node_of(routes)) if routes else ("the table is empty\n", None)
    if best is None:
        return f"{text}{dotted(address)} has no route\n"
    return f"{text}the best route of {dotted(address)} is {best.name()}\n"


def why(address, routes, names):
    agree = sorted((route for route in routes if route.is_for(address)), key=lambda route: -route.rank)
    if not agree:
        return f"no route agrees with {dotted(address)}\n"
    return f"routes that agree with {dotted(address)}, the longest mask first, which is taken:\n" + "".join(
        f"  {route.name()} leads{toward(route)} out of {names[route.index]} (flags {named(route.flags)})\n"
        for route in agree
    )


# ---- interfaces and sockets


def address_line(kind, address, far, prefix, cloning, routed):
    text = f"    {dotted(address)}/{prefix}"
    text += {0: f", broadcast address {dotted(far)}", 1: "", 2: f", other end {dotted(far)}"}[kind]
    return text + ", cloning" * cloning + ", which brought a route" * routed + "\n"


def interfaces(told):
    text = ""
    for index, each in enumerate(told, 1):
        link = f"link-layer address {each['link'].hex() or 'none'}"
        text += f"{index} {each['name'].decode()}: {KINDS[each['kind']]}, type {each['type']}, {link}\n"
        text += "".join(address_line(each["kind"], *own) for own in each["addresses"])
    return text or "there is no interface\n"


def sockets(told, counts):
    """`counts` has how many bytes wait for each and how many messages it lost."""
    text = ""
    for each in told:
        waiting, lost = counts[each["id"]]
        protocol, loopback = each["protocol"] or "any", "on" if each["loopback"] else "off"
        text += f"{each['id'].decode()}: pid {each['pid']}, protocol {protocol}, loopback {loopback}"
        text += f", bytes waiting {waiting}, messages lost {lost}\n"
    return text or "no socket is open\n"


def is_table_order(routes):
    """Keys rise, and of one key the longest mask comes first."""
    order = [(route.key, -route.rank) for route in routes]
    return order == sorted(order) and all(len(list(same)) == 1 for _, same in groupby(order))
