"""What stands in two places: the lines, errnos and statuses of docs/FORMATS.md and of the manual page, the errnos of
each call in FORMATS and in the header, the numbers of <net/route.h> and of the code, figures, the trees that TREE shows, and
the message that FORMATS takes apart."""
import re
from dataclasses import dataclass, replace
from pathlib import Path

from generator import START
from grammar import LINES
from messages import sized
from runs import DONE, FAULT_TEXT, answers

TOP = Path(__file__).resolve().parents[1]
CRATES = TOP / "crates"
NUMBERS = [CRATES / "route_msgs" / "src" / name for name in ("kinds.rt", "bits.rt", "flags.rt", "inits.rt")]
NUMBERS += CRATES.glob("sock_addrs/src/flags.rt")


PATHS = {
    "readme": "README.md", "formats": "docs/FORMATS.md", "manual": "docs/routesim.1", "proved": "docs/PROVED.md",
    "daemon": "docs/DAEMON.md", "decisions": "docs/DECISIONS.md", "speed": "docs/SPEED.md", "tree": "docs/TREE.md",
    "perf": "docs/PERF.md", "header": "include/hoiskend.h", "library": "docs/hoiskend.3", "rust": "bindings/rust/src/world.rs",
    "drawn": "examples/longest-mask.lab.shown",
}


@dataclass(frozen=True)
class Pages:
    """The texts that are compared, and the words of the crates."""

    readme: str
    formats: str
    manual: str
    proved: str
    daemon: str
    decisions: str
    speed: str
    tree: str
    perf: str
    header: str
    library: str
    rust: str
    drawn: str
    numbers: str
    words: frozenset

    @staticmethod
    def of_today():
        numbers = "".join(path.read_text() for path in NUMBERS)
        paths = [TOP / "crates.txt", *CRATES.glob("*/src/**/*.rt"), *CRATES.glob("*/specs/**/*.antt")]
        words = frozenset(re.findall(r"\w+", "".join(path.read_text() for path in paths)))
        return Pages(**{name: (TOP / path).read_text() for name, path in PATHS.items()}, numbers=numbers, words=words)


def section(text, begin, end):
    return text.split(begin, 1)[1].split(end, 1)[0]


def rows(text):
    """The cells of each row of the tables, but their heads."""
    lines = [line for line in text.splitlines() if line.startswith("| ")]
    return [[cell.strip() for cell in line.strip("|").split(" | ")] for line in lines]


def errnos_in_formats(pages):
    return [(cells[0], cells[1]) for cells in rows(section(pages.formats, "## Errnos", "\n## ")) if cells[0].isdigit()]


def errnos_in_manual(pages):
    return re.findall(r"^\.It (\d+) Er (\w+)$", section(pages.manual, ".Sh DIAGNOSTICS", "\n.Sh "), re.M)


# The call that does what a line says.
CALLS = {
    "if": "hk_attach_n", "addr": "hk_add_address_n", "unaddr": "hk_remove_address_n", "open": "hk_listen_n",
    "close": "hk_shut_n", "loopback": "hk_loopback_n", "write": "hk_write_n", "read": "hk_read_n", "lost": "hk_lost_n",
    "packet": "hk_packet", "redirect": "hk_redirect", "losing": "hk_losing", "dump N": "hk_dump",
    "dump ask": "hk_dump_size",
}
NO_CALL = {"route", "flags X N", "flags X ask"}
NO_LINE = {
    "hk_open", "hk_line", "hk_show", "hk_message_header", "hk_message_address", "hk_convert", "hk_add_route_n",
    "hk_interface_of", "hk_next_address", "hk_socket_at", "hk_route_of",
}
EINVAL, ENOBUFS = 22, 55


def numbers_in(text):
    return [int(number) for number in re.findall(r"\d+", text)]


def lines_in(text):
    return re.findall("`([^`]+)`", text)


def errnos_by_line(pages):
    """What each line may be answered, in order."""
    found = rows(section(pages.formats, "| Line | Errnos |", "\n## "))
    return {line: numbers_in(errnos) for lines, errnos in found for line in lines_in(lines)}


def errnos_by_call(pages):
    """What each call of the header may answer, in order, but for the EINVAL of parameters, which comes first."""
    numbers = {name: int(number) for name, number in re.findall(r"\bHK_(E[A-Z]+) = (\d+)", pages.header)}
    found = re.findall(r"/\*((?:(?!\*/).)*)\*/\nuint32_t (hk_\w+)\(", pages.header, re.S)
    told = {call: [numbers[name] for name in re.findall(r"\bHK_(E[A-Z]+)", comment)] for comment, call in found}
    return {call: errnos[errnos[:1] == [EINVAL] :] for call, errnos in told.items()}


def reasons(pages, begin, end):
    """The errnos of a table of FORMATS that has a row for each reason; of neighbours that are the same, one."""
    errnos = [int(cells[1]) for cells in rows(section(pages.formats, begin, end)) if cells[1].isdigit()]
    return [errno for errno, before in zip(errnos, [None, *errnos]) if errno != before]


def have_their_calls(pages):
    """Each line of FORMATS has the errnos of its call in the header."""
    by_line, by_call = errnos_by_line(pages), errnos_by_call(pages)
    same = all(by_line.get(line) == by_call.get(call) for line, call in CALLS.items())
    return same and set(by_line) == {*CALLS, *NO_CALL} and set(by_call) == {*CALLS.values(), *NO_LINE}


def have_their_reasons(pages):
    """The tables of reasons have the same errnos, and so has that of the lines which memory refuses never or late."""
    by_line = errnos_by_line(pages)
    write = reasons(pages, "### What a refused write is answered", "### ")
    redirect = reasons(pages, "| Why | Errno |\n", "**A route that is lost**")
    requests = [errno for errno in by_line["write"] if errno != ENOBUFS]
    late = rows(section(pages.formats, "These never answer `err 55`:", "\n## "))[1:]
    never = {line for lines, when in late if when == "always" for line in lines_in(lines)}
    before = {lines_in(lines)[0]: numbers_in(when) for lines, when in late if "where it is refused" in when}
    return (
        write == [errno for errno, last in zip(requests, [None, *requests]) if errno != last]
        and by_line["redirect"] == [*redirect, ENOBUFS]
        and never == {line for line, errnos in by_line.items() if ENOBUFS not in errnos}
        and all([*errnos, ENOBUFS] == by_line[line][: len(errnos) + 1] for line, errnos in before.items())
    )


# Figures that stand in several pages: what they are of, and behind which words.
FIGURES = {
    "instructions of a packet": [
        ("speed", "`bench/packets` counts #"), ("daemon", "`bench/packets` counts #"),
        ("library", "text: # instructions"), ("perf", "and # by an index"),
    ],
    "instructions of a packet by a default route": [("speed", "by the tree; #"), ("perf", "by a default route takes #")],
    "instructions of a packet without a route": [("speed", "a route # among 1,000"), ("perf", "a route # among 1,000")],
    "visits of a best route": [
        ("readme", "in at most # visits"), ("proved", "best route is found in at most # visits"),
        ("speed", "for the # visits"), ("tree", "At most # times"),
    ],
    "bytes of a room": [("speed", "The room is #"), ("decisions", "what the C library makes of them): #")],
    "bytes of a block": [("speed", "takes a block of #"), ("decisions", "Any other is whole, #")],
    "stack of a call": [
        ("header", "#define HK_STACK_BYTES #"), ("library", ".Dv HK_STACK_BYTES , #"), ("rust", "is owed: #"),
    ],
}


def figure(text, words):
    """The number behind these words, wherever lines end."""
    pattern = r"([\d,]*\d)".join(map(re.escape, words.rsplit("#", 1)))
    found = re.findall(pattern, " ".join(re.sub("\n *///", " ", text).split()))
    return int(found[0].replace(",", "")) if len(found) == 1 else None


def figures(pages, places):
    return {figure(getattr(pages, name), words) for name, words in places}


def statuses_in_formats(pages):
    found = rows(section(pages.formats, "## The program's words", "\n# "))
    return {int(cells[0]): "".join(re.findall("`(routesim: .*)`", cells[1])) for cells in found if cells[0].isdigit()}


def statuses_in_manual(pages):
    items = section(pages.manual, ".Sh EXIT STATUS", "\n.El").split("\n.It ")[1:]
    return {int(item.split()[0]): "".join(re.findall(r"\.Ql (routesim: [a-z ]+[a-z])", item)) for item in items}


def form_of_words(forms):
    """Of the forms of a command: its literal words, and the most words that one has in the place of others."""
    literals, most = set(), 0
    for form in forms:
        words = re.sub(r"[/\[\]|]", " ", form).split()
        literals |= {word for word in words if word.islower()}
        most = max(most, sum(not word.islower() for word in words))
    return literals, most


def by_command(forms):
    named = {}
    for form in forms:
        named.setdefault(form.split()[0], []).append(form)
    return {name: form_of_words(forms) for name, forms in named.items()}


def lines_in_formats(pages):
    cells = [cells[0] for cells in rows(section(pages.formats, "## Scripts", "| Word | Form |"))[1:]]
    forms = [form.removesuffix("OPTION..").strip() for cell in cells for form in re.findall("`([^`]+)`", cell)]
    return by_command([form + " [cloning]" if form.startswith("addr ") else form for form in forms])


def lines_in_manual(pages):
    items = re.split(r"\n\.It ", section(pages.manual, ".Ss Script", "\n.El"))[1:]
    forms = []
    for item in items:
        head = section(item, "Xo\n", ".Xc") if item.startswith("Xo") else item.split("\n")[0]
        words, is_literal = [], False
        for word in re.sub(r"Op Ar option \.\.\.| Ns / Ns |[|]", " ", head).replace("\n", " ").split():
            if word.lstrip(".") in ("Ic", "Cm", "Ar", "Op"):
                is_literal = word.lstrip(".") in ("Ic", "Cm")
            else:
                words.append(word if is_literal else word.upper())
        forms.append(" ".join(words))
    return by_command(forms)


def lines_in_grammar():
    forms = [re.sub(r"\[ (via|genmask) .*", "", form) for form in LINES]
    forms = [re.sub(r"\b(broadcast|any)$|\bbroadcast\b", "KIND", form) for form in forms]
    return by_command(forms)


def numbers_in_formats(pages):
    cells = rows(section(pages.formats, "The types of <net/route.h>", "### "))
    return {name: int(value, 0) for name, value, *_ in cells if re.fullmatch("(RTM|RTA|RTF|RTV)_[A-Z0-9]+", name)}


def numbers_in_code(pages):
    found = re.findall(r"pub const ((?:RTM|RTA|RTF|RTV)_[A-Z0-9]+): u\d+ = (\w+);", pages.numbers)
    return {name: int(value, 0) for name, value in found if name != "RTM_VERSION"}


# Types that are never made have no number in the code.
NEVER_MADE = {"RTM_OLDADD": 9, "RTM_OLDDEL": 10, "RTM_IFINFO": 14}


def claims(pages):
    """The claims of docs/PROVED.md, each with what carries it."""
    return [(cells[0], cells[1]) for cells in rows(pages.proved) if cells[0] != "Claim"]


def unnamed(pages):
    """The names of contracts and laws that docs/PROVED.md cites and the crates don't have."""
    carried = [name for _, cell in claims(pages) for name in re.findall("`([^`]+)`", cell)]
    return sorted({*re.findall(r"\w+", " ".join(carried))} - pages.words)


def has_its_pictures(pages):
    """The trees and the ways that TREE shows are those that `routelab` drew."""
    parts = section(pages.tree, "## As `routelab` draws it\n", "\n## ").split("\n\n")
    shown = [part for part in parts if part.startswith("    ")]
    return shown != [] and all(f"\n{part}\n" in pages.drawn for part in shown)


def differences(pages):
    """What stands otherwise in one place than in another."""
    texts = {status: text.decode().strip() for status, text in FAULT_TEXT.items()}
    formats, manual = statuses_in_formats(pages), statuses_in_manual(pages)
    same = {
        "errnos": errnos_in_formats(pages) == errnos_in_manual(pages) != [],
        "statuses": formats == manual == {**texts, 1: ""},
        "lines of FORMATS and the manual page": lines_in_formats(pages) == lines_in_manual(pages) != {},
        "lines of FORMATS and the grammar": lines_in_formats(pages) == lines_in_grammar(),
        "claims of at most 40 words": 0 < max(len(claim.split()) for claim, _ in claims(pages)) <= 40,
        f"names of contracts, but {unnamed(pages)}": not unnamed(pages),
        "numbers": numbers_in_formats(pages) == {**numbers_in_code(pages), **NEVER_MADE},
        "errnos of FORMATS by line and of the header by call": have_their_calls(pages),
        "errnos of FORMATS by line and by reason": have_their_reasons(pages),
        "pictures of TREE and of the example": has_its_pictures(pages),
    }
    for what, places in FIGURES.items():
        found = figures(pages, places)
        same[what] = len(found) == 1 and None not in found
    return [what for what, holds in same.items() if not holds]


def compare_pages(sweep):
    found = differences(Pages.of_today())
    sweep.claim(f"what stands in two places: {', '.join(found)}", not found)


BY_CALL, BY_REASON = "errnos of FORMATS by line and of the header by call", "errnos of FORMATS by line and by reason"
# Slips of the pen, each in one place.
SLIPS = [
    ("manual", ".It 48 Er EADDRINUSE", ".It 49 Er EADDRINUSE", "errnos"),
    ("formats", "| 28 | ENOSPC |", "| 28 | ENOSPACE |", "errnos"),
    ("manual", ".Ql routesim: bad line", ".Ql routesim: bad lines", "statuses"),
    ("formats", "| 6 | `routesim: no memory` |", "| 7 | `routesim: no memory` |", "statuses"),
    ("manual", ".It Ic lost Ar id", ".It Ic losses Ar id", "lines of FORMATS and the manual page"),
    ("manual", ".It Ic losing Ar address", ".It Ic losing Ar address address", "lines of FORMATS and the manual page"),
    ("formats", "| RTF_STATIC | 0x800 |", "| RTF_STATIC | 0x80 |", "numbers"),
    ("numbers", "pub const RTA_BRD: u32 = 0x80;", "", "numbers"),
    ("proved", "`joined_is_cut` in", "`joined_is_not_cut` in", "names of contracts, but ['joined_is_not_cut']"),
    ("proved", "| Messages that were", "| " + "Many " * 40 + "messages that were", "claims of at most 40 words"),
    ("header", "HK_ENXIO: no such interface. HK_EADDRNOTAVAIL: it doesn't", "HK_EADDRNOTAVAIL: none. HK_ENXIO: it doesn't",
     BY_CALL),
    ("header", "HK_EMFILE: there are 64. HK_ENOBUFS.", "HK_EMFILE: there are 64.", BY_CALL),
    ("header", "uint32_t hk_losing(", "uint32_t hk_lossless(", BY_CALL),
    ("formats", "| `addr` | 6, 22, 48, 28, 55, 17 |", "| `addr` | 6, 22, 48, 28, 17, 55 |", BY_CALL),
    ("formats", "| RTM_ADD without a gateway | 22 |", "| RTM_ADD without a gateway | 3 |", BY_REASON),
    ("formats", "or its broadcast address on a broadcast interface | 65 |", "or its other end | 51 |", BY_REASON),
    ("formats", "`close`, `unaddr`, `losing`,", "`close`, `unaddr`,", BY_REASON),
    ("formats", "| where it is refused 17, 24 |", "| where it is refused 17 |", BY_REASON),
    ("daemon", "`bench/packets` counts ", "`bench/packets` counts 1", "instructions of a packet"),
    ("perf", "by a default route takes ", "by a default route takes 1", "instructions of a packet by a default route"),
    ("tree", "At most 2,400 times", "Always 2,400 times", "visits of a best route"),
    ("tree", "    up to bit 22, masks", "    up to bit 23, masks", "pictures of TREE and of the example"),
    ("speed", "The room is ", "The room is 1", "bytes of a room"),
    ("decisions", "Any other is whole, ", "Any other is whole, 1", "bytes of a block"),
    ("header", "#define HK_STACK_BYTES ", "#define HK_STACK_BYTES 1", "stack of a call"),
]


def notice_slips(sweep):
    """The comparison notices each of these."""
    for field, old, new, what in SLIPS:
        pages = Pages.of_today()
        text = getattr(pages, field)
        found = differences(replace(pages, **{field: text.replace(old, new)}))
        sweep.claim(f"a slip of the pen: {new or old}", text.count(old) == 1 and what in found)


def run_worked_message(sweep):
    """The message that FORMATS takes apart is what its `route` line writes."""
    text = section(Pages.of_today().formats, "### An ADD, byte by byte", "### ")
    line, = re.findall(r"What `(route .*)` writes", text)
    at, message = 0, b""
    for offset, piece, _ in (cells for cells in rows(text) if cells[0].isdigit()):
        at += int(offset) != len(message)
        message += bytes.fromhex(piece.strip("`"))
    heard = [sweep.run(f"{START}read a\n{one}\nread a\n".encode()) for one in (line, f"write a {message.hex()}")]
    reply = message[:8] + bytes.fromhex("00000843") + message[12:16] + bytes.fromhex("00000064") + message[20:]
    told = f"msg {reply.hex()}\nok\n".encode()
    holds = all((answers(ran.wrote)[-2:], ran.status) == ([b"ok\n", told], DONE) for ran in heard)
    sweep.claim("the message that FORMATS takes apart", holds and at == 0 and message == sized(message))
