"""What is told of each line of a script, in a second reading, from what routesim answers to the lines that it stands for."""
import re
from dataclasses import dataclass, field

from asked import HELP, dotted, find, interfaces, is_table_order, named, route_of, sockets, table, tree, why
from grammar import INET, is_line
from messages import ADD, CHANGE, DELETE, DST, GATEWAY, GET, LOCK, number_of
from parts import LENGTH, OK, OVERRUN, family_of, fault_of, slots_of
from plain import ALL, ANY_VERB, WANTED, help_on, plain_of, told_of_bad, told_of_word, visible
from plain import VERBS as LINE_VERBS
from reading import ERRNOS, reading
from runs import BAD_LINE, DONE, MOST_LINE, answers
from there import Lines

NO_QUESTION = b"bad: wanted: one of ?table, ?tree, ?find A, ?why A, ?interfaces, ?sockets, ?help, ?help VERB, ?quit\n"
# Questions that are answered from a dump, and the others.
OF_ROUTES = re.compile(rf"\?(?:table|tree|(?:find|why) (?:{INET}))".encode())
OF_WORLD = b"?interfaces", b"?sockets", b"?help", b"?quit", *(f"?help {verb}".encode() for verb in LINE_VERBS)
USAGES = {line.split(" ")[0]: line for line in HELP.splitlines()}
DUMP = b"dump " + ALL

WRITES = ("write", "route")
# What isn't there that a message is about, by its type; else, and of one that isn't of IPv4.
MISSING = {GET: "no route leads there", CHANGE: "no route has this destination", LOCK: "no route has this destination"}
NO_ROUTE, NOT_INET = "there is no such route", "the destination is no IPv4 address"
# What is wrong with a message: as a whole, in its addresses, or that there is none of a gateway.
WRONG_WHOLE = {LENGTH: "the length is wrong", OVERRUN: "an address passes the end"}
NO_DESTINATION = "there is no destination"
WRONG_FORMS = (
    "the destination's length is none of a sockaddr_in", "the gateway, IFP or IFA is neither an IPv4 nor a link-layer sockaddr",
    "a mask is not ones and then zeros",
)
WITHOUT_GATEWAY = "a route to be added wants a gateway"
# Why lines are refused: what may be told of an errno, by the first word of the line.
REASONS = {
    3: dict.fromkeys(WRITES, (*MISSING.values(), NO_ROUTE, NOT_INET)),
    6: dict.fromkeys(("addr", "unaddr"), ("there is no interface of this name",)),
    9: dict.fromkeys((*WRITES, "read", "lost", "loopback", "close"), ("no socket of this id is open",)),
    12: dict.fromkeys(("dump", "flags"), ("the room is too small for all that is asked for",)),
    17: {
        "if": ("there is an interface of this name",),
        "addr": ("a route of its network and mask is there already; the interface keeps the address without one",),
        "open": ("a socket of this id is open",),
        **dict.fromkeys(WRITES, ("there is a route with this key and mask",)),
        "redirect": ("the destination has a route without a mask that lacks the flag HOST",),
    },
    22: {
        "addr": (
            "only a point-to-point interface has another end",
            "a point-to-point interface wants the address of its other end",
        ),
        **dict.fromkeys(WRITES, (*WRONG_WHOLE.values(), NO_DESTINATION, *WRONG_FORMS, WITHOUT_GATEWAY)),
        "redirect": (
            "who says so is not the gateway of the destination's route, or the new gateway is reached by another interface address than that route's",
        ),
    },
    24: {"open": ("64 sockets are open",)},
    28: {"if": ("there are 64 interfaces",), "addr": ("65535 addresses were added, and no more can be",)},
    40: dict.fromkeys(WRITES, ("the message has more than 8192 bytes",)),
    43: dict.fromkeys(WRITES, ("the version is not 3",)),
    45: dict.fromkeys(WRITES, ("a message of this type is no request",)),
    48: {"addr": ("an interface holds the address already",)},
    49: {"unaddr": ("the interface does not hold the address",)},
    51: {
        **dict.fromkeys(WRITES, ("no interface leads to the gateway",)),
        "packet": ("its route has the flag REJECT",),
        "redirect": ("the new gateway is in no interface's network",),
    },
    55: dict.fromkeys(("if", "addr", "open", "packet", "redirect", "dump", "flags", *WRITES), (
        "there is no memory; nothing was changed",
    )),
    59: dict.fromkeys(WRITES, ("no route of this destination has this mask; without a mask a host's route is meant",)),
    65: {
        "packet": ("no route leads there, or a host's route that has the flag REJECT",),
        "redirect": ("the new gateway is an address or a broadcast address of an interface, or the destination's route lacks the flag GATEWAY",),
        "losing": ("no route leads there",),
    },
}
REFUSED = re.compile(rb"^(E[A-Z]+ \((\d+)\)): ([^\n]*)$", re.M)


def is_passed(line):
    return line == b"" or line.startswith(b"#") and len(line) <= MOST_LINE


def is_question(line):
    return line.startswith(b"?")


def lines_of(script):
    """The lines of a script, without their newlines; a last one without one counts where it has a byte."""
    lines = script.split(b"\n")
    return lines[:-1] if lines[-1] == b"" else lines


def shadow_of(line):
    """The line that routesim is given in the place of this one."""
    if is_question(line):
        return DUMP if OF_ROUTES.fullmatch(line) else b"#"
    return line if is_passed(line) else plain_of(line)


@dataclass
class World:
    """The interfaces and sockets by now, and the script of routesim that led to them."""

    routesim: object
    lines: Lines = field(default_factory=Lines)
    script: list = field(default_factory=list)

    def names(self):
        return {index: each["name"].decode() for index, each in enumerate(self.lines.interfaces, 1)}

    def counts(self):
        """How many bytes wait for each socket, and how many messages it lost: it is read in another run."""
        ids = [each["id"] for each in self.lines.sockets]
        reads = b"".join(b"read %s\nlost %s\n" % (name, name) for name in ids)
        got = answers(self.routesim(b"\n".join([*self.script, reads])))[-2 * len(ids) :] if ids else []
        waiting = [sum(map(len, messages_in(read))) for read in got[::2]]
        return {name: (n, int(lost.split()[1])) for name, n, lost in zip(ids, waiting, got[1::2])}


def messages_in(answer):
    return [bytes.fromhex(line[4:].decode()) for line in answer.splitlines() if line.startswith(b"msg ")]


def told_of_question(line, answer, world):
    words = line.decode("latin-1").split(" ")
    if line == b"?interfaces":
        return interfaces(world.lines.interfaces)
    if line == b"?sockets":
        return sockets(world.lines.sockets, world.counts())
    if line in (b"?help", b"?quit"):
        return HELP if line == b"?help" else ""
    if words[0] == "?help":
        return help_on(words[1], USAGES[words[1]])
    routes = [route_of(message) for message in messages_in(answer)]
    assert is_table_order(routes)
    told = {"?table": lambda: table(routes, world.names()), "?tree": lambda: tree(routes)}
    if words[0] in told:
        return told[words[0]]()
    address = number_of(words[1])
    return find(address, routes) if words[0] == "?find" else why(address, routes, world.names())


def told_of_packet(words, fate, key, rank, gateway, index, flags, names):
    key = number_of(key)
    by = f"the route {dotted(key)}{'' if rank == '-' else '/' + rank} (flags {named(int(flags, 16))})\n"
    by = by.replace("the route 0.0.0.0/0 ", "the route default ")
    if fate == "drop":
        return f"{words[1]} is dropped without a word by {by}"
    toward = f"to {gateway}" if int(flags, 16) & 2 else "straight there"
    return f"{words[1]} goes {toward} out of {names[int(index)]}, by {by}"


def told_of_size(words, size):
    if words[0] != "lost":
        return f"{size} bytes to ask for\n"
    return {0: "no message was lost\n", 1: "1 message was lost\n"}.get(size, f"{size} messages were lost\n")


def told_of_answer(line, answer, world):
    """What is told of a plain line that is answered so. Of a refusal a question mark stands for the reason."""
    words, last = line.decode("latin-1").split(" "), answer.splitlines()[-1].decode().split(" ")
    if last[0] in ("via", "drop"):
        return told_of_packet(words, *last, world.names())
    if last[0] == "size":
        return told_of_size(words, int(last[1]))
    messages = "".join(map(reading, messages_in(answer)))
    tells_messages = words[0] == "read" or words[0] in ("dump", "flags") and words[-1] != "ask"
    if not messages and tells_messages and last[0] == "ok" or not messages and last == ["err", "12"]:
        messages = "nothing was heard\n" if words[0] == "read" else "no route is told\n"
    if last[0] == "err":
        return messages + f"{ERRNOS[int(last[1])]} ({last[1]}): ?\n"
    return messages + "ok\n"


@dataclass(frozen=True)
class Piece:
    """A line as it was sent, and what is told of it, without the line; and whether it is bad, or the last."""

    line: bytes
    told: bytes
    is_bad: bool = False
    is_last: bool = False


@dataclass(frozen=True)
class Told:
    """A script and what is told of its lines, up to the one that ends all."""

    name: str
    script: bytes
    pieces: tuple

    def status(self):
        return BAD_LINE if any(piece.is_bad for piece in self.pieces) else DONE

    def texts(self, echo=True, done=True):
        """What is written of each line."""
        for number, piece in enumerate(self.pieces, 1):
            echoed = b"%d: %s\n" % (number, visible(piece.line)) if echo else b""
            is_left_out = not done and piece.told == b"ok\n"
            yield echoed + (b"" if is_left_out else re.sub(rb"([^\n]*\n)", rb"    \1", piece.told))

    def ending(self):
        bad = [str(number) for number, piece in enumerate(self.pieces, 1) if piece.is_bad]
        return f"{len(bad)} bad line{'s' * (len(bad) > 1)}: {', '.join(bad)}\n".encode() if bad else b""

    def whole(self, **shows):
        return b"".join(self.texts(**shows)) + self.ending()

    def ended(self, size, **shows):
        """What is told of the lines that end among the first bytes."""
        return b"".join([*self.texts(**shows)][: self.script.count(b"\n", 0, size)])


def told_of_no_question(line):
    """What is told of a line behind `?` that asks nothing: of what stands where an address or a verb is to stand, or of all."""
    asked, space, word = line.partition(b" ")
    wanted = {b"?find": WANTED["address"][1], b"?why": WANTED["address"][1], b"?help": ANY_VERB}.get(asked)
    return told_of_word(1, word, wanted) if space and wanted else NO_QUESTION


def piece_of(line, shadow, answer, world):
    if is_passed(line):
        return Piece(line, b"")
    if is_question(line):
        is_one = bool(OF_ROUTES.fullmatch(line)) or line in OF_WORLD
        told = told_of_question(line, answer, world).encode() if is_one else told_of_no_question(line)
        return Piece(line, told, not is_one, line == b"?quit")
    plainly = b"" if shadow == line else b"= " + visible(shadow) + b"\n"
    if not is_line(shadow):
        return Piece(line, plainly + told_of_bad(shadow), True)
    world.lines.take(shadow, answer)
    return Piece(line, plainly + told_of_answer(shadow, answer, world).encode())


def told_of(name, script, routesim, transcript=None):
    """What is told of a script; `routesim` gives the transcript of one, or that of this script is given, which stands where no
    line is in an easier form."""
    lines = lines_of(script)
    shadows = [*map(shadow_of, lines)]
    if transcript is None or shadows != lines:
        transcript = routesim(b"".join(shadow + b"\n" for shadow in shadows))
    got, world, pieces = iter(answers(transcript)), World(routesim), []
    for line, shadow in zip(lines, shadows):
        pieces.append(piece_of(line, shadow, b"" if is_passed(shadow) else next(got), world))
        world.script.append(shadow)
        if pieces[-1].is_last:
            break
    return Told(name, script, tuple(pieces))


def without_reasons(wrote):
    """What was written, with a question mark for each reason."""
    return re.sub(rb"^(    E[A-Z]+ \(\d+\): )[^\n]*$", rb"\1?", wrote, flags=re.M)


VERBS = {"add": ADD, "delete": DELETE, "change": CHANGE, "get": GET, "lock": LOCK}


def reasons_of_message(message, errno):
    """Why a message may be refused with 3 or 22."""
    slots = slots_of(message) if fault_of(message) == OK else {}
    if errno == 3:
        is_inet = DST in slots and family_of(slots[DST][1]) == 2
        return [MISSING.get(message[3], NO_ROUTE) if is_inet else NOT_INET]
    if fault_of(message) != OK:
        return [WRONG_WHOLE[fault_of(message)]]
    if DST not in slots:
        return [NO_DESTINATION]
    return [*WRONG_FORMS, *([WITHOUT_GATEWAY] if message[3] == ADD and GATEWAY not in slots else [])]


def reasons_of(words, errno):
    """Why a line, by its words, may be refused so."""
    if errno in (3, 22) and words[0] == "write":
        return reasons_of_message(bytes.fromhex(words[2].replace("-", "")), errno)
    if errno in (3, 22) and words[0] == "route":
        return [WITHOUT_GATEWAY if errno == 22 else MISSING.get(VERBS[words[3]], NO_ROUTE)]
    return REASONS[errno].get(words[0], ())


def have_reasons(wrote):
    """Whether each refusal that was written below its line gives a reason for which such a line may be refused."""
    words = []
    for line in wrote.split(b"\n"):
        echoed = re.match(rb"\d+: ([^\n]*)", line)
        words = echoed[1].decode("latin-1").split(" ") if echoed else words
        found = REFUSED.match(line.removeprefix(b"    "))
        if found and line.startswith(b"    ") and found[3].decode() not in reasons_of(words, int(found[2])):
            return False
    return True
