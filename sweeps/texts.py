"""Texts whose messages are converted by the program: those of the examples, captures, any messages, lines that tell none, and
faults."""
import os
import random
import re
import struct
import subprocess
from dataclasses import dataclass
from pathlib import Path

from converted import changed, messages_of
from layouts import ORDER, SYSTEMS, Refused, convert
from manual import TOP
from messages import any_shown
from runs import BAD_LINE, DONE, NO_MEMORY, READ_FAULT, USAGE, WRITE_FAULT, fault_texts
from streams import READ_ROOM, is_in_step, reads_of
from words import FIRST_OPENED, folder_of

PAGE = TOP / "docs" / "routeconv.1"
FAULT_TEXT = fault_texts("routeconv")
NAMES = {"bsd44": "4.4bsd", "darwin": "macos"}
REASONS = {
    "Kind": "the type has no counterpart", "Length": "the length is wrong", "Version": "the version is another",
    "Overrun": "an address passes the end", "Wide": "a number or an address is too wide",
}
LINE = re.compile(rb"(msg |write [a-z0-9]{1,8} )((?:[0-9a-fA-F]{2})+)(\n?)")
# Texts in which no line tells a message.
NO_MESSAGES = [
    b"", b"\n", b"\n\n", b"ok", b"ok\n", b"msg", b"msg\n", b"msg \n", b"msg 0\n", b"msg 000\n", b"msg 0G\n", b"msg 00\r\n",
    b"msg 00 \n", b" msg 00\n", b"msg  00\n", b"Msg 00\n", b"msg-00\n", b"# msg 00\n", b"msg x 00\n", b"\xff\0\x80\n\0",
    b"write\n", b"write \n", b"write a\n", b"write a \n", b"write a -\n", b"write a 0\n", b"write a  00\n", b"write  a 00\n",
    b"write  00\n", b"write A 00\n", b"write abcdefghi 00\n", b"write a 00 00\n", b"write a- 00\n", b"writes a 00\n",
    b"write a\t00\n", b"write a0000\n", b"msg " + b"0" * 40_001 + b"\n", b"x" * 1_000_000,
    b"x" * 100_000 + b"\nok\n" + b"y" * 4096 + b"\n",
]


@dataclass(frozen=True)
class Way:
    """What is read and what is written: whether as bytes, and a system, each."""

    raw_in: bool
    source: str
    raw_out: bool
    to: str

    def words(self):
        sides = (self.raw_in, self.source), (self.raw_out, self.to)
        return [("raw:" if raw else "") + NAMES.get(system, system) for raw, system in sides]


@dataclass(frozen=True)
class Text:
    """A text with its way, and of each piece of it: the piece, what is written and what is told."""

    name: str
    way: Way
    pieces: tuple

    def given(self):
        return b"".join(piece for piece, _, _ in self.pieces)

    def whole(self):
        return b"".join(wrote for _, wrote, _ in self.pieces)

    def lines(self):
        return b"".join(line for _, _, line in self.pieces)

    def told(self):
        return self.whole(), BAD_LINE if self.lines() else DONE, self.lines()

    def ended(self, size):
        """What is written and told of the pieces that end among the first bytes."""
        wrote = told = b""
        for piece, own, line in self.pieces:
            size -= len(piece)
            if size < 0 or not is_whole(self.way, piece):
                break
            wrote, told = wrote + own, told + line
        return wrote, told


def pieces_in(way, text):
    """The lines of a text; or the messages of a capture, each of as many bytes as its first two say, and at least four."""
    if not way.raw_in:
        return re.findall(rb"[^\n]*\n|[^\n]+", text)
    pieces = []
    while text:
        size = max(4, struct.unpack(ORDER[way.source] + "H", text[:2])[0]) if len(text) > 1 else 4
        pieces.append(text[:size])
        text = text[size:]
    return pieces


def is_whole(way, piece):
    if not way.raw_in:
        return piece.endswith(b"\n")
    return len(piece) >= 4 and len(piece) >= struct.unpack(ORDER[way.source] + "H", piece[:2])[0]


def message_in(way, piece):
    """What stands before the message of a piece, its bytes, and what stands behind; or None."""
    if way.raw_in:
        return b"msg ", piece, b"\n"
    found = LINE.fullmatch(piece)
    return (found[1], bytes.fromhex(found[2].decode()), found[3]) if found else None


def text_of(name, way, text):
    """A text as the second writing converts it."""
    converted, messages, offset = [], 0, 0
    for piece in pieces_in(way, text):
        found, line = message_in(way, piece), b""
        wrote = b"" if way.raw_out else piece
        if found:
            messages += 1
            try:
                new = convert(way.source, way.to, found[1])
                wrote = new if way.raw_out else found[0] + new.hex().encode() + found[2]
            except Refused as why:
                wrote = b"" if way.raw_in or way.raw_out else b"# " + piece
                line = f"routeconv: message {messages} at {offset}: {REASONS[str(why)]}\n".encode()
        converted.append((piece, wrote, line))
        offset += len(piece)
    return Text(name, way, tuple(converted))


def claim(sweep, text):
    ran = sweep.run(text.given(), text.way.words())
    sweep.claim(f"{text.name} {text.way.words()}", ran.told() == text.told() and ran.left_nothing())


def ways(raw_in, raw_out):
    return [Way(raw_in, source, raw_out, to) for source in SYSTEMS for to in SYSTEMS]


def in_layout(system, messages):
    """Of these messages of 4.4BSD those of a system, where they have counterparts, and else as they are."""
    for message in messages:
        try:
            yield convert("bsd44", system, message)
        except Refused:
            yield message


def capture_of(system, messages):
    """A capture of a system, in which each message says its length."""
    whole = [message for message in in_layout(system, messages) if len(message) > 3]
    return b"".join(struct.pack(ORDER[system] + "H", len(message)) + message[2:] for message in whole)


def convert_examples(sweep, example):
    """A script and its transcript, in each layout; and a script that was converted and comes back."""
    for system in SYSTEMS:
        for text in (example.script, example.transcript):
            there = text_of(example.name, Way(False, "bsd44", False, system), text)
            claim(sweep, there)
            claim(sweep, text_of(f"{example.name} and back", Way(False, system, False, "bsd44"), there.whole()))


def convert_each_way(sweep, example):
    """The messages of an example as lines or as bytes, in each layout, to each."""
    messages = messages_of([example])
    for way in (*ways(False, False), *ways(False, True)):
        lines = b"".join(b"msg %s\nok\n" % message.hex().encode() for message in in_layout(way.source, messages))
        claim(sweep, text_of(f"{example.name} in lines", way, lines))
    for way in (*ways(True, False), *ways(True, True)):
        claim(sweep, text_of(f"{example.name} as a capture", way, capture_of(way.source, messages)))


def convert_any_messages(sweep, seed):
    """Messages with anything in them, in lines and in captures."""
    rng, messages = random.Random(seed), any_shown(seed)[:100]
    for raw in (False, True):
        for way in (*ways(raw, False), *ways(raw, True)):
            given = [changed(rng, message) for message in in_layout(way.source, messages)]
            lines = b"".join(rng.choice((b"msg ", b"write a ")) + message.hex().encode() + b"\n" for message in given)
            claim(sweep, text_of(f"messages of seed {seed}", way, b"".join(given) if raw else lines))


def convert_fronts(sweep, example):
    """Texts and captures that end at each byte."""
    messages = messages_of([example])[:2]
    for system in SYSTEMS[:3]:
        capture = capture_of(system, messages)
        for n in range(len(capture) + 1):
            claim(sweep, text_of(f"{n} bytes of a capture", Way(True, system, False, "bsd44"), capture[:n]))
        line = b"write a " + capture[:80].hex().encode() + b"\nok\n"
        for n in range(len(line) + 1):
            claim(sweep, text_of(f"{n} bytes of a line", Way(False, system, False, "bsd44"), line[:n]))


def keep_no_messages(sweep):
    """What tells no message stays where lines are written, and is left out where messages alone are."""
    for text in NO_MESSAGES:
        for raw in (False, True):
            claim(sweep, text_of(f"{text[:20]}", Way(False, "bsd44", raw, "freebsd"), text))


def convert_long_bytes(sweep):
    """Messages of any number of bytes; and bytes that are no capture."""
    for n in (1, 2, 3, 4, 75, 76, 2304, 8192, 65_535, 65_536, 100_000):
        for end in (b"\n", b""):
            claim(sweep, text_of(f"{n} bytes", Way(False, "bsd44", False, "freebsd"), b"msg " + b"01" * n + end))
        for byte in (b"\0", b"\1", b"\xff"):
            claim(sweep, text_of(f"{n} times {byte}", Way(True, "freebsd", False, "bsd44"), byte * n))


def texts_of(example):
    """A script for which a message is refused, and a capture in which one is."""
    text = example.script + example.transcript + b"msg 00\nok\n" + example.transcript
    capture = capture_of("netbsd", messages_of([example])[:3])
    yield text_of(example.name, Way(False, "bsd44", False, "openbsd"), text)
    yield text_of(f"{example.name} as a capture", Way(True, "netbsd", False, "bsd44"), capture + b"\4\0\0\x0e" + capture[:200])


def read_in_pieces(sweep, example):
    """Bytes that come in pieces change nothing; each read has the same room, and none is made without need."""
    for text in texts_of(example):
        for piece in (1, 7, READ_ROOM):
            ran = sweep.run(text.given(), text.way.words(), piece=piece)
            reads = ran.counts["reads"], ran.counts["least_room"], ran.counts["most_room"]
            holds = ran.told() == text.told() and reads == (reads_of(len(text.given()), piece), READ_ROOM, READ_ROOM)
            sweep.claim(f"{text.name}: pieces of {piece}", holds and ran.left_nothing())


def fail_each_read(sweep, example):
    """The read k fails, for each k up to the one that tells the end: pieces that were read whole are converted."""
    piece = 7
    for text in texts_of(example):
        for call in range(1, reads_of(len(text.given()), piece) + 1):
            ran = sweep.run(text.given(), text.way.words(), fail_read=call, piece=piece)
            wrote, lines = text.ended(piece * (call - 1))
            told = wrote, READ_FAULT, lines + FAULT_TEXT[READ_FAULT]
            sweep.claim(f"{text.name}: read {call} fails", ran.told() == told and ran.left_nothing())


def fail_each_write(sweep, example, fault):
    """Each write of one byte fails, or takes none: in the copy that goes on from there no more is written."""
    for text in texts_of(example):
        ran, size = sweep.run(text.given(), text.way.words(), one_byte=1, **{fault: 1}), len(text.whole())
        copies = ran.counts["copies"], ran.counts["copies_well"]
        lines = ran.error.replace(FAULT_TEXT[WRITE_FAULT], b"")
        holds = (ran.wrote, ran.status, lines) == text.told() and ran.error.count(FAULT_TEXT[WRITE_FAULT]) == size
        sweep.claim(f"{text.name}: {fault}", holds and copies == (size, size) and ran.left_nothing())


def refuse_each_allocation(sweep, example, fault):
    """The allocation k is refused (or k and all later ones), for each k that the run has: pieces are converted up to one
    that had no memory, and the status says why."""
    for text in texts_of(example):
        fronts = {(b"", b"")}
        for n in range(len(text.pieces) + 1):
            front = Text(text.name, text.way, text.pieces[:n])
            fronts.add((front.whole(), front.lines()))
        calls = sweep.run(text.given(), text.way.words()).counts["allocations"]
        sweep.claim(f"{text.name}: allocations", calls > 0)
        for call in range(1, calls + 1):
            ran = sweep.run(text.given(), text.way.words(), **{fault: call})
            end = FAULT_TEXT[NO_MEMORY]
            is_told = ran.status == NO_MEMORY and ran.error.endswith(end)
            told = is_told and (ran.wrote, ran.error[: -len(end)]) in fronts
            sweep.claim(f"{text.name}: {fault} {call}", told and ran.counts["faults"] > 0 and ran.left_nothing())


def convert_each_piece_at_once(sweep, example):
    """Each piece is converted before the next one is sent."""
    for text in texts_of(example):
        turns = ((piece, wrote) for piece, wrote, _ in text.pieces)
        holds = is_in_step(sweep, turns, text.told()[1], text.way.words())
        sweep.claim(f"{text.name}: piece by piece", holds)


def tell_to_nobody(sweep, example):
    """Where standard error takes nothing, a message that is to be told of ends the run as a write fault does."""
    for text in texts_of(example):
        with open("/dev/full", "wb") as full:
            how = {"input": text.given(), "stdout": subprocess.PIPE, "stderr": full, "env": sweep.environment()}
            ran = subprocess.run([sweep.program, *text.way.words()], **how)
        sweep.claim(f"{text.name}: nobody is told", ran.returncode == WRITE_FAULT and text.whole().startswith(ran.stdout))


def fail_each_read_of_a_file(sweep, example):
    """FILE is read as standard input is, which is left alone."""
    for text in texts_of(example):
        path = folder_of(sweep, {"text": text.given()}) / "text"
        for call in range(1, reads_of(len(text.given()), READ_ROOM) + 1):
            ran = sweep.run(b"x\n", [*text.way.words(), path], reads_of=FIRST_OPENED, fail_read=call)
            wrote, lines = text.ended(READ_ROOM * (call - 1))
            told = wrote, READ_FAULT, lines + FAULT_TEXT[READ_FAULT]
            sweep.claim(f"{text.name}: read {call} of FILE fails", ran.told() == told and ran.left_nothing())


def refuse_sides(sweep):
    """Words that name no two sides."""
    for words in (
        [], ["4.4bsd"], ["raw:freebsd"], ["linux", "4.4bsd"], ["4.4bsd", "linux"], ["raw", "freebsd"], ["raw:", "freebsd"],
        ["4.4BSD", "freebsd"], ["raw:raw:freebsd", "4.4bsd"], ["", "freebsd"], ["freebsd", ""], ["bsd44", "freebsd"],
        ["4.4bsd ", "freebsd"], ["freebsd:raw", "4.4bsd"], ["darwin", "4.4bsd"], ["--raw", "freebsd", "4.4bsd"],
    ):
        ran = sweep.run(b"msg 00\n", words)
        sweep.claim(f"{words}", ran.told() == (b"", USAGE, FAULT_TEXT[USAGE]) and ran.left_nothing())


def statuses_in(page):
    items = page.split(".Sh EXIT STATUS")[1].split("\n.El")[0].split("\n.It ")[1:]
    return {int(item.split()[0]): "".join(re.findall(r"\.Ql (routeconv: [a-z ]+[a-z])", item)) for item in items}


def compare_statuses(sweep):
    """The manual page has the statuses and texts of the program; and a slip of the pen is noticed."""
    page, wanted = PAGE.read_text(), {status: text.decode().strip() for status, text in FAULT_TEXT.items()} | {1: ""}
    wanted[BAD_LINE] = ""
    sweep.claim("the statuses of the manual page", statuses_in(page) == wanted)
    for old, new in ((".It 5\n", ".It 6\n"), (".Ql routeconv: read fault", ".Ql routeconv: fault")):
        holds = page.count(old) == 1 and statuses_in(page.replace(old, new)) != wanted
        sweep.claim(f"a slip of the pen: {new.strip()}", holds)


def compare_a_capture(sweep, folder, others):
    """The capture of the examples is played and compared as stored, by the programs or by the scripts beside; docs/DAEMON.md has
    the script's lines, its beginning and what it prints."""
    path = Path(folder_of(sweep, {}))
    for name, program in (("routeconv", sweep.program), *others.items()):
        (path / name).symlink_to(program)
    script, stored = folder / "capture" / "compare", (folder / "capture" / "compare.shown").read_bytes()
    environment = {**os.environ, "PATH": f"{path}:{os.environ['PATH']}"}
    ran = subprocess.run([script], capture_output=True, env=environment)
    told = b"routeconv: message 1 at 0: the type has no counterpart\n"
    sweep.claim("the capture of the examples", (ran.stdout, ran.returncode, ran.stderr) == (stored, 1, told))
    page = (TOP / "docs" / "DAEMON.md").read_text()
    lines = script.read_text().split("PATH=$PATH:../..\n")[1]
    shown = [f"```bash\n{lines}```", f"```\n{stored.decode()}```", f"```\n{(folder / 'capture' / 'begin.routes').read_text()}```"]
    sweep.claim("docs/DAEMON.md has it", all(text in page for text in shown))


def convert_what_the_page_shows(sweep):
    """The manual page's example, which comes back as it was."""
    shown = PAGE.read_text().split("$ routeconv 4.4bsd freebsd << 'END'\n")[1].split(".Ed\n")[0]
    given, wrote = (part.encode() for part in shown.split("END\n"))
    sweep.claim("the manual page's example", sweep.run(given, ["4.4bsd", "freebsd"]).told() == (wrote, DONE, b""))
    sweep.claim("the manual page's example, back", sweep.run(wrote, ["freebsd", "4.4bsd"]).told() == (given, DONE, b""))
    reasons = [line for line in PAGE.read_text().splitlines() if line.startswith(".It Ql ")]
    sweep.claim("the manual page's reasons", [line.removeprefix(".It Ql ") for line in reasons] == [*REASONS.values()])
