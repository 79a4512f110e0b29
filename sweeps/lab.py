"""Scripts that are told in words: the examples, any lines, and what comes in pieces, fails, or has no memory."""
import os
import random
import re
from dataclasses import dataclass, replace

from generator import BLEMISHES, START
from grammar import LINES, any_line
from memory import asks_in_vain, may_want_memory, tables_before, takes_away
from messages import ADDRESSES
from plain import ALL, NUMBERS, visible
from runs import BAD_LINE, DONE, NO_MEMORY, READ_FAULT, Example, answers
from streams import READ_ROOM, is_in_step, reads_of
from told import NO_QUESTION, have_reasons, is_passed, is_question, lines_of, shadow_of, told_of, without_reasons
from words import FIRST_OPENED, folder_of

# What is shown, by the words that say so.
SHOWS = [
    ((), {}), (("--no-echo",), {"echo": False}), (("--quiet",), {"echo": False, "done": False}),
    (("-q",), {"echo": False, "done": False}), (("--no-echo", "-q"), {"echo": False, "done": False}),
]
# What may be told on standard error where there is no memory to begin.
UNBEGUN = b"", b"routelab: no memory\n", b"error: out of memory\n"
UNREAD = b"Input/output error"
NO_ROOM = b"    ENOBUFS (55): there is no memory; nothing was changed\n"
LINES_A_SEED = 200
# What is written of a line: itself behind its number, and below it what is told.
TOLD = re.compile(rb"\d+: [^\n]*\n(?:    [^\n]*\n)*")


@dataclass(frozen=True)
class Given:
    """A script, by its name, and its transcript and status where these are stored; and what the program wrote of it, likewise."""

    name: str
    script: bytes
    transcript: bytes = None
    status: int = None
    shown: bytes = None

    @staticmethod
    def at(path):
        if path.suffix == ".routes":
            example = Example.at(path)
            return Given(example.name, example.script, example.transcript, example.status)
        stored = path.with_suffix(".lab.shown")
        return Given(path.name, path.read_bytes(), shown=stored.read_bytes() if stored.exists() else b"nothing is stored")

    def told(self, sim):
        return told_of(self.name, self.script, lambda script: sim.run(script).wrote, self.transcript)


def fault_of(file, why=UNREAD):
    """What standard error says of a file that can't be read or written."""
    return b"routelab: %s: %s\n" % (os.fsencode(file), why)


def as_told(ran):
    return without_reasons(ran.wrote), ran.status, ran.error


def tell(sweep, sim, given):
    """A script is told as the second reading has it, by each way of showing; and as it is stored, where it is."""
    told = given.told(sim)
    for words, shows in SHOWS:
        ran = sweep.run(given.script, words)
        holds = as_told(ran) == (told.whole(**shows), told.status(), b"") and ran.left_nothing()
        sweep.claim(f"{given.name} {' '.join(words)} in words", holds)
    ran = sweep.run(given.script)
    is_stored = given.shown in (None, ran.wrote) and given.status in (None, ran.status)
    sweep.claim(f"{given.name} in words: reasons, and as it is stored", is_stored and have_reasons(ran.wrote))


# ---- any lines


def in_names(rng, word):
    """Flags by names, most of which are such."""
    names = rng.sample([*NUMBERS], rng.randrange(1, 4))
    return b",".join([*names, *([rng.choice([b"", b"up", b"-", b"PKSENT", word])] if rng.random() < 0.1 else [])])


def easier(rng, line):
    """A line in one of the easier forms now and then."""
    line = re.sub(rb"(?<=flags )[0-9a-fA-F]+", lambda found: in_names(rng, found[0]) if rng.random() < 0.5 else found[0], line)
    return re.sub(rb"^((?:dump|flags [^ ]+) )\d+$", lambda found: found[1] + rng.choice([b"all", ALL, b"ALL", b"all"]), line)


def any_question(rng):
    address = rng.choice([*ADDRESSES, "10.0.0", ""]).encode()
    return rng.choice([
        b"?table", b"?tree", b"?find " + address, b"?why " + address, b"?interfaces", b"?sockets", b"?help", b"?", b"??",
        b"?table ", b"?tre", b"?find", b"? tree", b"?why  10.0.0.1", b"?TREE", b"?help if", b"?help route", b"?help addr", b"?help ", b"?help tree",
    ])


def any_lab(seed):
    """Lines of every form in any order, some in the easier forms, some with blemishes, and questions."""
    rng = random.Random(seed)
    lines = START.encode().splitlines()
    for _ in range(LINES_A_SEED):
        line = any_question(rng) if rng.random() < 0.2 else easier(rng, any_line(rng, rng.choice(LINES), beyond=0.02))
        lines.append(rng.choice(BLEMISHES)(rng, line).replace(b"\n", b"") if rng.random() < 0.08 else line)
    lines += [b"?table", b"?tree", b"?sockets", b"?interfaces", *(b"?find " + address.encode() for address in ADDRESSES)]
    return Given(f"lines of seed {seed}", b"".join(line + b"\n" for line in lines))


def tell_any_lines(sweep, sim, seed):
    tell(sweep, sim, any_lab(seed))


def many_routes(seed):
    """Routes whose keys share bits, added and taken away, with questions about them."""
    rng = random.Random(seed)
    lines = START.encode().splitlines() + [b"?table", b"?tree", b"?find 10.0.0.9", b"?why 20.0.0.1"]
    for turn in range(LINES_A_SEED):
        size = rng.choice([0, 4, 8, 8, 9, 12, 15, 16, 16, 24, 31, 32, None])
        key = rng.choice([0x0A000000, 0x0A800000, 0x14000000, 0x14010000, 0x14010200, 0x80000000, 0xFFFFFFFF])
        key ^= rng.choice([0, 1 << rng.randrange(32)])
        key &= 0xFFFFFFFF if size is None else 0xFFFFFFFF << 32 - size & 0xFFFFFFFF
        word = b".".join(b"%d" % byte for byte in key.to_bytes(4, "big"))
        verb = rng.choice([b"add"] * 5 + [b"delete"])
        mask, flags = (b"", b"UP,GATEWAY,HOST") if size is None else (b"/%d" % size, b"UP,GATEWAY")
        lines.append(b"route a %d %s %s%s via 10.0.0.2 flags %s" % (turn, verb, word, mask, flags))
        if turn % 9 == 0:
            lines += [b"?tree", b"?find " + word, b"?why " + word, b"?find 20.1.2.3"]
    return Given(f"routes of seed {seed}", b"\n".join([*lines, b"?table", b"?tree", b"?quit", b"bogus", b"?tree"]))


def tell_many_routes(sweep, sim, seed):
    tell(sweep, sim, many_routes(seed))


# ---- lines of any length


def tell_at_borders(sweep, sim):
    """Long lines, and texts that end without a newline, with empty lines or with none."""
    bad = b"1: %s\n    bad: word %d (`%s`) is wrong; wanted: %s\n1 bad line: 1\n"
    too_long = b"1: %s\n    bad: wanted: a line of at most 16500 bytes\n1 bad line: 1\n"
    wanted = b"a message: at most 8246 bytes in hexadecimal, or - for none"
    long, longer = b"write a " + b"0" * 16_491 + b"g", b"write a " + b"0" * 16_493
    for line, wrote in (
        (long, bad % (long, 3, long[8:], wanted)), (longer, too_long % longer),
        (b"#" * 16_500, b"1: " + b"#" * 16_500 + b"\n"), (b"#" * 16_501, too_long % (b"#" * 16_501)),
        (b"x" * 100_000, too_long % (b"x" * 100_000)),
        (b"?" * 20_000, b"1: %s\n    %s1 bad line: 1\n" % (b"?" * 20_000, NO_QUESTION)),
        (b"#\x1b]0;x\x07\x7f \xc3\xa9#", b"1: #\\x1b]0;x\\x07\\x7f \xc3\xa9#\n"),
    ):
        for end in (b"", b"\n"):
            ran = sweep.run(line + end)
            status = DONE if wrote.endswith(b"#\n") else BAD_LINE
            sweep.claim(f"{line[:20]} of {len(line)} bytes{end}", ran.told() == (wrote, status, b"") and ran.left_nothing())
    fits = Given("a write of as many bytes as a line has room for", START.encode() + b"write a " + b"00" * 8246 + b"\nread a")
    tell(sweep, sim, fits)
    for script, wrote in (
        (b"", b""), (b"\n", b"1: \n"), (b"\n\n", b"1: \n2: \n"), (b"?tree", b"1: ?tree\n    the table is empty\n"),
        (b"\n?sockets", b"1: \n2: ?sockets\n    no socket is open\n"), (b"#\n\n#", b"1: #\n2: \n3: #\n"),
    ):
        sweep.claim(f"the text {script}", sweep.run(script).told() == (wrote, DONE, b""))


def leave_the_rest(sweep):
    """Nothing is read that isn't needed for the lines up to `?quit`, and nothing is told of those behind it."""
    for rest in (b"", b"bogus\n", b"?tree\n" * 10_000):
        ran = sweep.run(b"?tree\n?quit\n" + rest)
        wrote = b"1: ?tree\n    the table is empty\n2: ?quit\n", DONE, b""
        sweep.claim(f"{len(rest)} bytes behind ?quit", ran.told() == wrote and ran.counts["reads"] == 1 and ran.left_nothing())
    ran = sweep.run(b"?quit\n?quit\n", piece=6)
    sweep.claim("?quit twice", ran.told() == (b"1: ?quit\n", DONE, b"") and ran.counts["reads"] == 1)
    ran = sweep.run(b"bogus\n?quit")
    sweep.claim("?quit without a newline", ran.status == BAD_LINE and ran.wrote.endswith(b"\n2: ?quit\n1 bad line: 1\n"))


# ---- pieces and faults


def read_in_pieces(sweep, sim, given):
    """Bytes that come and go in pieces change nothing; each read has the same room, and none is made without need."""
    told = given.told(sim)
    wanted = told.whole(), told.status(), b""
    for piece in (1, 7, READ_ROOM):
        ran = sweep.run(given.script, piece=piece)
        reads = ran.counts["reads"], ran.counts["least_room"], ran.counts["most_room"]
        holds = as_told(ran) == wanted and reads == (reads_of(len(given.script), piece), READ_ROOM, READ_ROOM)
        sweep.claim(f"{given.name} in words: pieces of {piece}", holds and ran.left_nothing())
    ran = sweep.run(given.script, one_byte=1)
    holds = as_told(ran) == wanted and ran.counts["writes"] == len(ran.wrote) and ran.left_nothing()
    sweep.claim(f"{given.name} in words: writes of one byte", holds)


def fail_each_read(sweep, sim, given):
    """The read k fails, for each k up to the one that tells the end: lines that were read whole are told, and no ending."""
    told, piece = given.told(sim), 7
    for call in range(1, reads_of(len(given.script), piece) + 1):
        ran = sweep.run(given.script, fail_read=call, piece=piece)
        ended = told.ended(piece * (call - 1)), READ_FAULT, fault_of("standard input")
        holds = as_told(ran) == ended and ran.left_nothing()
        sweep.claim(f"{given.name} in words: read {call} fails", holds)


def fail_each_read_of_a_file(sweep, sim, given):
    """FILE is read as standard input is, which is left alone."""
    told, path = given.told(sim), folder_of(sweep, {"text": given.script}) / "text"
    ran = sweep.run(b"x\n", [path])
    holds = as_told(ran) == (told.whole(), told.status(), b"") and ran.counts["reads"] == 0
    sweep.claim(f"{given.name} as FILE", holds and ran.left_nothing())
    for call in range(1, reads_of(len(given.script), READ_ROOM) + 1):
        ran = sweep.run(b"x\n", [path], reads_of=FIRST_OPENED, fail_read=call)
        holds = as_told(ran) == (told.ended(READ_ROOM * (call - 1)), READ_FAULT, fault_of(path)) and ran.left_nothing()
        sweep.claim(f"{given.name} as FILE: read {call} fails", holds)


def fail_each_write(sweep, sim, given, fault):
    """Each write of one byte fails, or takes none: in the copy that goes on from there no more is written, and it tells so."""
    told = given.told(sim)
    ran = sweep.run(given.script, one_byte=1, **{fault: 1})
    copies = ran.counts["copies"], ran.counts["copies_well"]
    faults = fault_of("standard output") * len(ran.wrote)
    holds = as_told(ran) == (told.whole(), told.status(), faults) and copies == (len(ran.wrote), len(ran.wrote))
    sweep.claim(f"{given.name} in words: {fault}, first at byte {ran.counts['first_wrong']}", holds and ran.left_nothing())


def tell_each_line_at_once(sweep, sim, given):
    """Each line is told before the next one is sent."""
    whole, told = sweep.run(given.script), given.told(sim)
    texts = texts_in(whole.wrote, told)
    turns = [(line + b"\n", text) for line, text in zip(lines_of(given.script), texts)]
    sweep.claim(f"{given.name} in words: line by line", is_in_step(sweep, turns, told.status(), behind=told.ending()))


def texts_in(wrote, told):
    """What was written cut behind what is told of each line; of refusals with their reasons."""
    texts = TOLD.findall(wrote.removesuffix(told.ending()))
    return texts if [*map(without_reasons, texts)] == [*told.texts()] else []


# ---- memory


def answers_by_line(sim, given):
    """What routesim answers to each line, or nothing, by the line's place."""
    shadows = [*map(shadow_of, lines_of(given.script))]
    got = iter(answers(sim.run(b"".join(shadow + b"\n" for shadow in shadows)).wrote))
    return shadows, [b"" if is_passed(shadow) else next(got) for shadow in shadows]


def line_of(sweep, given, call):
    """The place of the line in which the allocation of this number comes."""
    lines, at = lines_of(given.script), 0
    while at < len(lines) and sweep.run(b"".join(line + b"\n" for line in lines[: at + 1])).counts["allocations"] < call:
        at += 1
    return at


def tables_of(sim, given):
    """The routes that are there before each packet, by the line's place."""
    shadows = [*map(shadow_of, lines_of(given.script))]
    places = [at for at, shadow in enumerate(shadows) if not is_passed(shadow)]
    script = b"".join(shadow + b"\n" for shadow in shadows)
    return {places[at]: table for at, table in tables_before(sim, script).items()}


def is_refused_well(sweep, sim, given, ran, fault, call):
    """The run ended with the lines before one that had no memory; or a line that may want memory was refused, and all else is as
    it is with a comment in its place; or the line asked in vain, or gave memory back."""
    told, lines = given.told(sim), lines_of(given.script)
    texts = TOLD.findall(ran.wrote)
    refused = [at for at, text in enumerate(texts) if text.endswith(b"\n" + NO_ROOM)]
    if ran.status == NO_MEMORY and ran.wrote == b"":
        return ran.error in UNBEGUN and ran.left_nothing()
    is_excused = ran.error == (b"routelab: no memory\n" if ran.status == NO_MEMORY else b"")
    if not is_excused or not ran.left_nothing() or ran.status not in (NO_MEMORY, told.status()):
        return False
    if any(is_question(lines[at]) for at in refused):
        return False
    if not refused and ran.status != NO_MEMORY:
        at = line_of(sweep, given, call)
        shadows, got = answers_by_line(sim, given)
        same = as_told(ran) == (told.whole(), told.status(), b"")
        return same and at < len(got) and (asks_in_vain(shadows[at], got[at]) or takes_away(shadows[at], got[at]))
    rest = replace(given, script=b"".join((b"#" if at in refused else line) + b"\n" for at, line in enumerate(lines)), transcript=None)
    wanted = [*rest.told(sim).texts()]
    for at in refused:
        plain = shadow_of(lines[at])
        shown = b"" if plain == lines[at] else b"    = " + visible(plain) + b"\n"
        wanted[at] = b"%d: %s\n" % (at + 1, visible(lines[at])) + shown + NO_ROOM
    wanted = wanted[: len(texts)] if ran.status == NO_MEMORY else [*wanted, rest.told(sim).ending()]
    holds = without_reasons(b"".join(wanted)) == without_reasons(ran.wrote)
    if fault == "refuse_alloc" and refused:
        (shadows, got), tables = answers_by_line(sim, given), tables_of(sim, given)
        holds = holds and len(refused) == 1 and may_want_memory(shadows[refused[0]], got[refused[0]], tables.get(refused[0]))
    return holds


def refuse_each_allocation(sweep, sim, given, fault):
    """The allocation k is refused (or k and all later ones), for each k that the run has; each of them came."""
    calls = sweep.run(given.script).counts["allocations"]
    for call in range(1, calls + 1):
        ran = sweep.run(given.script, **{fault: call})
        met = ran.counts["faults"] == 1 if fault == "refuse_alloc" else ran.counts["faults"] >= 1
        sweep.claim(f"{given.name} in words: {fault} {call}", met and is_refused_well(sweep, sim, given, ran, fault, call))
    beyond = sweep.run(given.script, **{fault: calls + 1})
    sweep.claim(f"{given.name} in words: {fault} comes", calls > 0 and beyond.counts["faults"] == 0 and beyond.left_nothing())
