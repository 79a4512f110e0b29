"""Lines as people write them, in a second reading: the plain line that each stands for, which of its words is wrong, and what
is wanted there."""
import re

from grammar import METRICS, WORDS, is_line
from reading import FLAGS
from runs import MOST_LINE

ALL = b"4294967295"
NUMBERS = {name.encode(): 1 << bit for bit, name in enumerate(FLAGS) if name != "-"}


def plain_flags(word):
    """Flags by their names as the number that these say, in hexadecimal."""
    names = word.split(b",")
    if not all(name in NUMBERS for name in names):
        return word
    number = 0
    for name in names:
        number |= NUMBERS[name]
    return b"%x" % number


def plain_room(word):
    return ALL if word == b"all" else word


def plain_of(line):
    """The line that routesim takes."""
    words = line.split(b" ")
    if words[0] == b"route":
        pairs = range(5, len(words) - 1, 2)
        words = [plain_flags(word) if at - 1 in pairs and words[at - 1] == b"flags" else word for at, word in enumerate(words)]
    if words[0] == b"flags" and len(words) > 1:
        words[1] = plain_flags(words[1])
    place = {b"dump": 1, b"flags": 2}.get(words[0], len(words))
    words[place : place + 1] = map(plain_room, words[place : place + 1])
    return b" ".join(words)


# ---- which word is wrong

# The words that a verb has to have behind it, by what is wanted of each.
VERBS = {
    "if": "interface kind type hardware", "addr": "interface network", "unaddr": "interface address",
    "open": "socket process protocol", "loopback": "socket switch", "close": "socket", "read": "socket", "lost": "socket",
    "write": "socket bytes", "route": "socket sequence request destination", "packet": "address",
    "redirect": "address address address", "losing": "address", "dump": "room", "flags": "flags room",
}
OPTIONS = {
    "via": "gateway", "genmask": "mask", "ifp": "leading", "ifa": "leading", "flags": "flags", "inits": "bits", "locks": "bits",
    **dict.fromkeys(METRICS, "metric"),
}
MOST = 4294967295
# What is wanted: its form, by the words of the grammar, and how people are told of it.
WANTED = {
    "interface": ("NAME", "an interface's name: 1 to 8 of a to z and 0 to 9"),
    "socket": ("ID", "a socket's id: 1 to 8 of a to z and 0 to 9"),
    "kind": ("KIND", "one of broadcast, loopback, ptp"),
    "type": ("BYTE", "the interface's type: a number from 0 to 255"),
    "hardware": ("LINK", "a link-layer address: 1 to 8 bytes in hexadecimal, or - for none"),
    "network": ("INET/PREFIX", "an address and its prefix's length, as 10.0.0.1/8"),
    "address": ("INET", "an IPv4 address, as 10.0.0.1"),
    "process": ("NUMBER", f"a process id: a number from 0 to {MOST}"),
    "protocol": ("PROTOCOL", "a protocol: any, or an address family's number from 1 to 255, as 2 for IPv4"),
    "switch": ("on|off", "on or off"),
    "bytes": ("MESSAGE", "a message: at most 8246 bytes in hexadecimal, or - for none"),
    "sequence": ("NUMBER", f"a sequence number: from 0 to {MOST}"),
    "request": ("VERB", "one of add, delete, change, get, lock"),
    "destination": ("DEST", "a destination: an address as 10.0.0.1, a network as 10.0.0.0/8, or default"),
    "gateway": ("GATE", "a gateway: an IPv4 address, or link: and the 8 to 32 bytes of a sockaddr_dl in hexadecimal"),
    "leading": ("GATE", "an interface: an IPv4 address, or link: and the 8 to 32 bytes of a sockaddr_dl in hexadecimal"),
    "mask": ("PREFIX", "a mask's length: a number from 0 to 32"),
    "flags": ("FLAGS", "flags: their names, as UP,GATEWAY, or 1 to 8 hexadecimal digits"),
    "bits": ("FLAGS", "bits: 1 to 8 hexadecimal digits"),
    "metric": ("NUMBER", f"a metric: a number from 0 to {MOST}"),
    "room": ("ask|NUMBER", f"ask, all, or how many bytes there is room for: a number from 0 to {MOST}"),
}
FORMS = {
    what: re.compile(re.sub("[A-Z]+", lambda word: f"(?:{WORDS[word[0]].form})", form).encode()) for what, (form, _) in WANTED.items()
}
NOTHING, SHORTER = "nothing more", f"a line of at most {MOST_LINE} bytes"


def behind_address(words):
    """What may stand behind an interface's address, and the words of it that are as they are wanted."""
    if words[:1] == [b"to"]:
        if len(words) < 2 or not FORMS["address"].fullmatch(words[1]):
            return 1, WANTED["address"][1]
        return (3, NOTHING) if words[2:3] == [b"cloning"] else (2, "cloning, or nothing more")
    return (1, NOTHING) if words[:1] == [b"cloning"] else (0, "to and an address, cloning, or nothing more")


def listed(names):
    """The options of which one may come."""
    if len(names) < 2:
        return f"{names[0]}, or {NOTHING}" if names else NOTHING
    return f"{NOTHING}, or of these, in this order: {', '.join(names)}"


def behind_destination(words):
    """Likewise of the options of a `route` line."""
    at, left = 0, [*OPTIONS]
    while at < len(words) and words[at].decode("latin-1") in left:
        name = words[at].decode("latin-1")
        if at + 1 == len(words) or not FORMS[OPTIONS[name]].fullmatch(words[at + 1]):
            return at + 1, WANTED[OPTIONS[name]][1]
        at, left = at + 2, left[left.index(name) + 1 :]
    return at, listed(left)


BEHIND = {"addr": behind_address, "route": behind_destination}


ANY_VERB = f"one of {', '.join(VERBS)}; ?help tells of them"


def fault_of(line):
    """The place of the first word that is wrong, from 0 on, and what is wanted there, of a plain line that is none."""
    if len(line) > MOST_LINE:
        return 0, SHORTER
    verb, *words = line.split(b" ")
    kinds = VERBS.get(verb.decode("latin-1"))
    if kinds is None:
        return 0, ANY_VERB
    for at, what in enumerate(kinds.split()):
        if at == len(words) or not FORMS[what].fullmatch(words[at]):
            return 1 + at, WANTED[what][1]
    count = len(kinds.split())
    at, wanted = BEHIND.get(verb.decode(), lambda words: (0, NOTHING))(words[count:])
    return 1 + count + at, wanted


def visible(text):
    """A text in which each byte that a terminal would obey stands by its number."""
    return re.sub(rb"[\x00-\x1f\x7f]", lambda found: b"\\x%02x" % found[0][0], text)


def told_of_word(place, word, wanted):
    """What is told of a word that is wrong, or missing, and of what is wanted at its place, from 0 on."""
    what = b" is missing" if word is None else b" (`" + visible(word) + b"`) is wrong"
    if word == b"":
        what = b" is empty, since words are parted by single spaces"
    return b"bad: word %d%s; wanted: %s\n" % (place + 1, what, wanted.encode())


def told_of_bad(line):
    """What is told of a plain line that the grammar doesn't have."""
    place, wanted = fault_of(line)
    if wanted == SHORTER:
        return b"bad: wanted: %s\n" % wanted.encode()
    words = line.split(b" ")
    return told_of_word(place, None if place == len(words) else words[place], wanted)


def help_on(verb, usage):
    """What is told of a verb, whose usage is given: what each of its words is, and what may stand behind them."""
    lines = [usage, *(f"  word {at}: {WANTED[what][1]}" for at, what in enumerate(VERBS[verb].split(), 2))]
    if verb == "addr":
        lines.append(f"  then {behind_address([])[1]}")
    if verb == "route":
        lines += ["  then options, in this order:", *(f"  {option} and {WANTED[what][1]}" for option, what in OPTIONS.items())]
    return "".join(f"{line}\n" for line in lines)


# ---- lines and what they stand for, worked by hand

PLAIN = [
    (b"dump all", b"dump 4294967295"),
    (b"dump  all", b"dump  all"),
    (b"flags UP,STATIC all", b"flags 801 4294967295"),
    (b"flags all ask", b"flags all ask"),
    (b"flags PROTO1 all all", b"flags 8000 4294967295 all"),
    (b"flags DONE", b"flags 40"),
    (b"route a 1 get default flags UP,GATEWAY", b"route a 1 get default flags 3"),
    (b"route a 1 get default flags UP,,GATEWAY", b"route a 1 get default flags UP,,GATEWAY"),
    (b"route a 1 get default flags up", b"route a 1 get default flags up"),
    (b"route a 1 get default flags UP,UP flags HOST,BLACKHOLE", b"route a 1 get default flags 1 flags 1004"),
    (b"route a 1 get flags UP flags UP", b"route a 1 get flags UP flags UP"),
    (b"route flags UP", b"route flags UP"),
    (b"packet all", b"packet all"),
]
MISSPELT = [
    (b" if le0 ptp 6 -", 1, "one of if, addr, unaddr, open, loopback, close, read, lost, write, route, packet, redirect, losing, dump, flags; ?help tells of them"),
    (b"if le0 brodcast 6 -", 3, "one of broadcast, loopback, ptp"),
    (b"if le0 ptp 256 -", 4, "the interface's type: a number from 0 to 255"),
    (b"if le0 ptp 6", 5, "a link-layer address: 1 to 8 bytes in hexadecimal, or - for none"),
    (b"if le0 ptp 6 - ", 6, "nothing more"),
    (b"addr le0 10.0.0.1", 3, "an address and its prefix's length, as 10.0.0.1/8"),
    (b"addr le0 10.0.0.1/8 clone", 4, "to and an address, cloning, or nothing more"),
    (b"addr le0 10.0.0.1/8 to", 5, "an IPv4 address, as 10.0.0.1"),
    (b"addr le0 10.0.0.1/8 to 10.0.0.2 to", 6, "cloning, or nothing more"),
    (b"addr le0 10.0.0.1/8 cloning to", 5, "nothing more"),
    (b"open  a 1 any", 2, "a socket's id: 1 to 8 of a to z and 0 to 9"),
    (b"open a 01 any", 3, "a process id: a number from 0 to 4294967295"),
    (b"open a 1 0", 4, "a protocol: any, or an address family's number from 1 to 255, as 2 for IPv4"),
    (b"loopback a yes", 3, "on or off"),
    (b"write a 0", 3, "a message: at most 8246 bytes in hexadecimal, or - for none"),
    (b"route a -1 add default", 3, "a sequence number: from 0 to 4294967295"),
    (b"route a 1 put default", 4, "one of add, delete, change, get, lock"),
    (b"route a 1 add 10.0.0.0/33", 5, "a destination: an address as 10.0.0.1, a network as 10.0.0.0/8, or default"),
    (b"route a 1 add default via", 7, "a gateway: an IPv4 address, or link: and the 8 to 32 bytes of a sockaddr_dl in hexadecimal"),
    (b"route a 1 add default genmask 33", 7, "a mask's length: a number from 0 to 32"),
    (b"route a 1 add default ifa le0", 7, "an interface: an IPv4 address, or link: and the 8 to 32 bytes of a sockaddr_dl in hexadecimal"),
    (b"route a 1 add default flags up", 7, "flags: their names, as UP,GATEWAY, or 1 to 8 hexadecimal digits"),
    (b"route a 1 add default locks MTU", 7, "bits: 1 to 8 hexadecimal digits"),
    (b"route a 1 add default mtu -", 7, "a metric: a number from 0 to 4294967295"),
    (b"route a 1 add default ssthresh 1 mtu 1", 8, "nothing more, or of these, in this order: rtt, rttvar"),
    (b"route a 1 add default rtt 1 mtu 1", 8, "rttvar, or nothing more"),
    (b"route a 1 add default rttvar 1 mtu 1", 8, "nothing more"),
    (b"dump", 2, "ask, all, or how many bytes there is room for: a number from 0 to 4294967295"),
    (b"flags 1 none", 3, "ask, all, or how many bytes there is room for: a number from 0 to 4294967295"),
    (b"losing 10.0.0.1 10.0.0.1", 3, "nothing more"),
]


def read_second_readings(sweep):
    """The second readings say what was worked by hand."""
    sweep.claim("plain lines worked by hand", all(plain_of(line) == plain for line, plain in PLAIN))
    for line, number, wanted in MISSPELT:
        sweep.claim(f"{line}, worked by hand", not is_line(line) and fault_of(line) == (number - 1, wanted))
