"""Scripts that are made, from fixed seeds or of all lengths."""
import random

from grammar import IDS, LINES, any_line
from messages import DST, GATEWAY, GET, HEADER, NETMASK, inet, mask, message, sized

START = "if le0 broadcast 6 080020010203\nopen a 100 any\naddr le0 10.0.0.1/8 cloning\n"
SEEDS = range(1, 21)
LINES_A_SEED = 400
MOST_MESSAGE, MOST_WRITE = 8192, 8246
MOST_SOCKETS = 64

# What may be wrong with a line beside its words.
BLEMISHES = [
    lambda rng, line: line.replace(b" ", b"  ", 1),
    lambda rng, line: line.replace(b" ", b"\t", 1),
    lambda rng, line: b" " + line,
    lambda rng, line: line + b" ",
    lambda rng, line: line + b"\r",
    lambda rng, line: line + b" a",
    lambda rng, line: line.rpartition(b" ")[0],
    lambda rng, line: line.title(),
    lambda rng, line: line[: rng.randrange(len(line) + 1)],
    lambda rng, line: line[:-1] + bytes([rng.randrange(256)]),
    lambda rng, line: b"#" + line,
    lambda rng, line: b"",
]


def any_script(seed):
    """Lines of every form in any order, some with blemishes; at the end sockets are read."""
    rng = random.Random(seed)
    lines = [START.encode()]
    for _ in range(LINES_A_SEED):
        line = any_line(rng, rng.choice(LINES))
        if rng.random() < 0.08:
            line = rng.choice(BLEMISHES)(rng, line).replace(b"\n", b"")
        lines.append(line + b"\n")
    return b"".join(lines) + b"".join(f"read {name}\n".encode() for name in dict.fromkeys(IDS))


# Sockets of each kind: that hear all, one family, or not their own writes.
QUEUE_START = [*START.encode().splitlines(), b"open b 1 2", b"open c 2 18", b"open z 3 any", b"loopback z off"]
QUEUE_IDS = [b"a", b"b", b"c", b"z"]
TELLING = "write", "route", "packet", "redirect", "losing", "addr"
QUEUE_FORMS = [form for form in LINES if form.split(" ")[0] in TELLING]


def queue_script(seed):
    """The ids of sockets, and lines that these hear much of, with few reads; at the end each is counted and read."""
    rng, lines = random.Random(seed), [*QUEUE_START]
    for _ in range(LINES_A_SEED):
        lines.append(any_line(rng, rng.choice(QUEUE_FORMS), beyond=0))
        if rng.random() < 0.05:
            lines.append(rng.choice([b"read", b"lost"]) + b" " + rng.choice(QUEUE_IDS))
    ends = [b"%s %s" % (command, name) for command in (b"lost", b"read", b"lost") for name in QUEUE_IDS]
    return QUEUE_IDS, lines + ends


def each_form():
    """Each form of a line a hundred times in a row, with words that have it: what one refuses, another takes."""
    rng = random.Random(0)
    lines = [any_line(rng, template, beyond=0) for template in LINES for _ in range(100)]
    return START.encode() + b"".join(line + b"\n" for line in lines) + b"read a\n"


def all_names_and_links(link_size):
    """Interfaces with names of each length and link-layer addresses of this one, and sockets with ids as long."""
    script, names = "", ["az09az09"[:size] for size in range(1, 9)]
    link = bytes(range(0xF8, 0xF8 + link_size)).hex() or "-"
    for at, name in enumerate(names):
        script += f"open {name} {[0, 2**32 - 1][at % 2]} any\nif {name} broadcast {[0, 255][at % 2]} {link}\n"
        script += f"addr {name} 10.{at}.0.1/{[16, 32][at % 2]}\n"
    return (script + "".join(f"read {name}\n" for name in names)).encode()


def all_prefixes():
    """An address with each prefix, and past the greatest; a GET of an address in each network, and of one behind it."""
    addresses = "".join(f"addr le0 {size}.1.2.3/{size}{[' cloning', ''][size % 2]}\n" for size in range(34))
    gets = [message(GET, {DST: inet(f"{size}.{low}.2.4")}) for size in range(34) for low in (1, 255)]
    return START.encode() + addresses.encode() + b"".join(map(written, gets))


def written(text):
    """A write and a read behind it."""
    return b"write a " + (text.hex() or "-").encode() + b"\nread a\n"


def heard(errno, text):
    """The answers of these two, where the socket heard this message, or none."""
    return ((f"err {errno}\n" if errno else "ok\n") + (f"msg {text.hex()}\n" if text else "") + "ok\n").encode()


def answer_of(text, pid):
    """What is answered and heard of a message of `all_lengths`: of a GET with a destination the route, of another type
    the message itself with errno 45, and with 22 where it is cut; nothing of one without a header, or too long."""
    if not HEADER <= len(text) <= MOST_MESSAGE:
        return heard(22 if len(text) < HEADER else 40, b"")
    if text[3] == GET and len(text) >= HEADER + 16:
        route = {DST: inet("10.0.0.0"), GATEWAY: inet("10.0.0.1"), NETMASK: mask(8)}
        return heard(0, message(GET, route, flags=0x141, pid=pid, seq=1))
    errno = 22 if len(text) < HEADER + 16 else 45
    return heard(errno, text[:16] + pid.to_bytes(4, "big") + text[20:24] + errno.to_bytes(4, "big") + text[28:])


def crowd(others, protocol):
    """So many sockets beside `a`, which hear this protocol."""
    return [(f"s{at}", f"open s{at} {at} {protocol}\n") for at in range(others)]


def all_lengths(kind, sizes, pid, others=0):
    """Messages of this type, of these lengths, with one address and bytes behind it, beside so many sockets that hear
    none of it; and the transcript."""
    whole = message(kind, {DST: inet("10.9.9.9")}).ljust(MOST_WRITE, b"\xa5")
    texts = [sized(whole[:size]) for size in sizes]
    start = f"if le0 broadcast 6 -\naddr le0 10.0.0.1/8 cloning\nopen a {pid} any\n"
    start += "".join(line for _, line in crowd(others, 255))
    answers = [b"ok\n" * (3 + others), *(answer_of(text, pid) for text in texts)]
    return start.encode() + b"".join(map(written, texts)), b"".join(answers)


# Lengths at which a write is judged in another way, and some between.
BORDER_LENGTHS = [0, 1, 75, 76, 91, 92, 93, 116, 1_000, 4_095, 4_096, 7_000, 8_191, 8_192, 8_193, MOST_WRITE]


def heard_by_all(kind):
    """Messages of this type, of lengths at borders, that 64 sockets hear and read; and the transcript."""
    whole = message(kind, {DST: inet("10.9.9.9")}).ljust(MOST_WRITE, b"\xa5")
    sockets = crowd(MOST_SOCKETS - 1, "any")
    start = "if le0 broadcast 6 -\naddr le0 10.0.0.1/8 cloning\nopen a 7 any\n" + "".join(line for _, line in sockets)
    script, transcript = start.encode(), b"ok\n" * (3 + len(sockets))
    for text in (sized(whole[:size]) for size in BORDER_LENGTHS):
        answer = answer_of(text, 7)
        script += written(text) + b"".join(b"read %s\n" % name.encode() for name, _ in sockets)
        transcript += answer + answer.partition(b"\n")[2] * len(sockets)
    return script, transcript


def all_classes():
    """Addresses that begin with each byte: packets without a route, packets that clone and packets by their clone,
    redirects, requests, and addresses of an interface; and the transcript."""
    lines = [(line, "ok") for line in START.splitlines()]
    firsts = range(256)

    def packets(elsewhere):
        for address in (f"{first}.{rest}" for first in firsts for rest in ("0.0.0", "1.2.3", "255.255.255")):
            is_near = address.startswith("10.")
            near, far = f"via {address} - 10.0.0.1 1 00000005", elsewhere.format(address)
            lines.extend([(f"packet {address}", near if is_near else far)] * 2)

    packets("err 65")
    lines.append(("route a 1 add default via 10.0.0.2 flags 903", "ok"))
    packets("via {} - 10.0.0.2 1 00000807")
    for first in firsts:
        lines.append((f"route a {first} get {first}.4.5.6", "ok"))
        lines.append((f"redirect {first}.4.5.6 10.0.0.3 10.0.0.2", "err 22" if first == 10 else "ok"))
        lines.append((f"route a 2 add {first}.7.0.0/16 via 10.0.0.4 flags 3", "ok"))
        lines.append((f"packet {first}.7.8.9", f"via {first}.7.0.0 16 10.0.0.4 1 00000003"))
        lines.append((f"route a 3 delete {first}.7.0.0/16", "ok"))
        lines.append((f"addr le0 {first}.11.12.13/16", "ok"))
        lines.append((f"unaddr le0 {first}.11.12.13", "ok"))
    script, transcript = ("".join(f"{part}\n" for part in parts).encode() for parts in zip(*lines))
    return script, transcript


def cuts_of(text):
    """A message cut to each length, with its length field as it was and with the cut length."""
    return [cut for size in range(len(text)) for cut in (text[:size], sized(text[:size]))]


def cut_whole(text):
    """Its cuts are written, and what is heard of each is read."""
    return START.encode() + b"read a\n" + b"".join(map(written, cuts_of(text)))


def fronts(line):
    """Each front of a line that has at least a byte, and the line."""
    return START.encode() + b"".join(line[:size] + b"\n" for size in range(1, len(line) + 1))
