"""The lines of a script as a table: the words that each has, and texts at the borders of these, within and beyond.

A new command is a line of `LINES`, and a new word one of `WORDS`.
"""
import re
from dataclasses import dataclass
from typing import Callable

from messages import ADDRESSES, PREFIXES, any_link, any_message
from runs import MOST_LINE


@dataclass(frozen=True)
class Word:
    """The form of a word, a source of words that have it, and texts that don't."""

    form: str
    within: Callable
    beyond: list


def some(*texts):
    return lambda rng: rng.choice(texts)


def up_to(most):
    """The form of the decimals from 0 to a number of at least two digits, without leading zeros."""
    digits = str(most)
    forms = ["0", f"[1-9][0-9]{{0,{len(digits) - 2}}}"]
    for at, digit in enumerate(digits):
        least = 1 if at == 0 else 0
        if int(digit) > least:
            forms.append(f"{digits[:at]}[{least}-{int(digit) - 1}][0-9]{{{len(digits) - at - 1}}}")
    return "|".join([*forms, digits])


def any_case(rng, text):
    return rng.choice([text, text.upper()])


def link_hex(rng):
    size = rng.randrange(9)
    return any_case(rng, bytes(rng.randrange(256) for _ in range(size)).hex()) or "-"


def any_gate(rng):
    return rng.choice([rng.choice(ADDRESSES), "link:" + any_case(rng, any_link(rng).hex())])


def any_dest(rng):
    return rng.choice(["default", rng.choice(ADDRESSES), f"{rng.choice(ADDRESSES)}/{rng.choice(PREFIXES)}"])


HEX = "(?:[0-9a-fA-F]{2})"
BYTE = up_to(255)
INET = rf"(?:{BYTE})(?:\.(?:{BYTE})){{3}}"
GATE = "|".join([INET, *(f"link:(?i:{size:02x})12{HEX}{{{size - 2}}}" for size in range(8, 33))])
# Names that are used often, so that lines meet, and names of each length.
NAMES = [*["le0"] * 6, "ed0", "lo0", "p0", *("az09az09"[:size] for size in range(1, 9)), "99999999", "zzzzzzzz"]
IDS = [*["a"] * 12, "b", "b", "b", "c", "z", "0", "9", *("s0cket19"[:size] for size in range(2, 9))]
BYTES = ["0", "1", "6", "9", "10", "24", "99", "100", "199", "200", "249", "250", "255"]
NUMBERS = ["0", "1", "9", "10", "100", "65536", "4294967294", "4294967295"]
FLAGS = ["0", "1", "4", "5", "103", "907", "F", "ffff", "00000001", "FFFFFFFF"]
VERBS = ["add", "add", "add", "delete", "change", "get", "lock"]
# Texts that no such word has.
NO_NAMES = ["", "A", "le_0", "123456789", "le0.", "\x7f", "{", "`", "/", ":"]
NO_INETS = ["10.0.0", "1.0.0.1.2", "10.0.0.256", "1.0.0.01", "1.0..1", "1.2.3.1000", ".1.0.0.1", "1.0.0.1.", "0x.0.0.1"]
NO_NUMBERS = ["", "00", "01", "+1", "-1", "1a", "0x1", "1.0", "99999999999999999999"]
NO_HEX = ["", "--", "0", "012", "0g", "-00", "0x00"]

WORDS = {
    "NAME": Word("[a-z0-9]{1,8}", some(*NAMES), NO_NAMES),
    "ID": Word("[a-z0-9]{1,8}", some(*IDS), NO_NAMES),
    "KIND": Word("broadcast|loopback|ptp", some("broadcast", "loopback", "ptp"), ["", "Ptp", "broadcas", "ptps"]),
    "BYTE": Word(BYTE, some(*BYTES), ["256", "260", "300", "1000", *NO_NUMBERS]),
    "NUMBER": Word(up_to(2**32 - 1), some(*NUMBERS), ["4294967296", "5000000000", *NO_NUMBERS]),
    "PREFIX": Word(up_to(32), some(*map(str, PREFIXES)), ["33", "40", "99", "320", *NO_NUMBERS]),
    "PROTOCOL": Word(f"any|(?!0)(?:{BYTE})", some("any", "1", "2", "2", "18", "255"), ["0", "256", "ANY", *NO_NUMBERS]),
    "INET": Word(INET, some(*ADDRESSES), NO_INETS),
    "LINK": Word(f"-|{HEX}{{1,8}}", link_hex, ["00" * 9, *NO_HEX]),
    "MESSAGE": Word(f"-|{HEX}+", lambda rng: any_case(rng, any_message(rng).hex()) or "-", NO_HEX),
    "FLAGS": Word("[0-9a-fA-F]{1,8}", some(*FLAGS), ["", "123456789", "g", "0x1", "-"]),
    "GATE": Word(GATE, any_gate, ["link:", "link:-", "link:" + "0812" * 4, *NO_INETS]),
    "DEST": Word(f"default|{INET}(?:/(?:{up_to(32)}))?", any_dest, ["", "default/0", "1.0.0.0/33", "1./", *NO_INETS]),
    "VERB": Word("add|delete|change|get|lock", some(*VERBS), ["", "ADD", "ad", "adds", "put", "Lock", "chang"]),
}

METRICS = ["mtu", "hopcount", "expire", "recvpipe", "sendpipe", "ssthresh", "rtt", "rttvar"]
OPTIONS = "[ via GATE][ genmask PREFIX][ ifp GATE][ ifa GATE][ flags FLAGS][ inits FLAGS][ locks FLAGS]"
OPTIONS += "".join(f"[ {name} NUMBER]" for name in METRICS)
# Each form of a line. A word in capitals is one of `WORDS`; what stands in brackets may be left out.
LINES = [
    "if NAME broadcast BYTE LINK",
    "if NAME KIND BYTE LINK",
    "addr NAME INET/PREFIX[ cloning]",
    "addr NAME INET/PREFIX to INET[ cloning]",
    "open ID NUMBER any",
    "open ID NUMBER PROTOCOL",
    "write ID MESSAGE",
    "read ID",
    "packet INET",
    "dump NUMBER",
    "dump ask",
    "flags FLAGS NUMBER",
    "flags FLAGS ask",
    "route ID NUMBER VERB DEST" + OPTIONS,
    "loopback ID on",
    "loopback ID off",
    "close ID",
    "redirect INET INET INET",
    "unaddr NAME INET",
    "lost ID",
    "losing INET",
]


def form_of(template):
    """The regular expression of a line."""
    text = template.replace("[", "(?:").replace("]", ")?")
    return re.compile(re.sub("[A-Z]+", lambda word: f"(?:{WORDS[word[0]].form})", text).encode())


FORMS = [form_of(template) for template in LINES]


def is_line(line):
    """Whether the grammar has the line."""
    return len(line) <= MOST_LINE and any(form.fullmatch(line) for form in FORMS)


def any_line(rng, template, beyond=0.03):
    """A line of this form; each word is beyond its form now and then, and what may be left out is so mostly."""
    text = re.sub(r"\[([^\]]*)\]", lambda part: part[1] if rng.random() < 0.3 else "", template)

    def word(found):
        of = WORDS[found[0]]
        return rng.choice(of.beyond) if rng.random() < beyond else of.within(rng)

    return re.sub("[A-Z]+", word, text).encode()
