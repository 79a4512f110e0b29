"""Texts with their messages in words: those of the examples, any messages, lines that tell none, and faults."""
import re
from dataclasses import dataclass
from pathlib import Path

from manual import README, TOP, blocks
from messages import any_shown
from reading import reading
from runs import BAD_LINE, DONE, NO_MEMORY, READ_FAULT, WRITE_FAULT, fault_texts
from streams import READ_ROOM, is_in_step, reads_of
from words import FIRST_OPENED, folder_of

PAGE = TOP / "docs" / "routeshow.1"
FAULT_TEXT = fault_texts("routeshow")
# Texts in which no line tells a message: upper case, an odd number of digits or none, other bytes, a long line.
NO_MESSAGES = [
    b"", b"\n", b"\n\n", b"ok", b"ok\n", b"msg", b"msg\n", b"msg \n", b"msg 0\n", b"msg 000\n", b"msg 0G\n", b"msg AB\n",
    b"msg 00\r\n", b"msg 00 \n", b" msg 00\n", b"msg  00\n", b"Msg 00\n", b"msg-00\n", b"smsg 00\n", b"\xff\0\x80\n\0",
    b"msg " + b"0" * 40_001 + b"\n", b"x" * 1_000_000, b"x" * 100_000 + b"\nok\n" + b"y" * 4096 + b"\n",
]


@dataclass(frozen=True)
class Shown:
    """A text, and its lines as they are shown."""

    name: str
    text: bytes
    pieces: tuple

    def whole(self):
        return b"".join(self.pieces)

    def told(self):
        return self.whole(), DONE, b""

    def ended(self, size):
        """What is shown of the lines that end among the first bytes."""
        return b"".join(self.pieces[: self.text.count(b"\n", 0, size)])


def shown_line(line):
    """A line as the second reading shows it."""
    found = re.fullmatch(rb"msg ((?:[0-9a-f]{2})+)\n?", line)
    return reading(bytes.fromhex(found[1].decode())).encode() if found else line


def lines_of(text):
    return re.findall(rb"[^\n]*\n|[^\n]+", text)


def shown_of(name, text):
    return Shown(name, text, tuple(map(shown_line, lines_of(text))))


def at(path):
    """An example's transcript."""
    return shown_of(path.stem, path.read_bytes())


def show(sweep, path):
    """A transcript is shown as the second reading has it, and as it is stored, where it is."""
    example, stored = at(path), path.with_suffix(".shown")
    is_stored = not stored.exists() or stored.read_bytes() == example.whole()
    ran = sweep.run(example.text)
    sweep.claim(f"{path.stem} in words", is_stored and ran.told() == example.told() and ran.left_nothing())


def show_any_messages(sweep, seed):
    """Messages with anything in them, from a fixed seed, between lines that tell none."""
    lines = [line for message in any_shown(seed) for line in (b"ok\n", b"msg %s\n" % message.hex().encode())]
    example = shown_of(f"messages of seed {seed}", b"".join(lines))
    sweep.claim(f"{example.name} in words", sweep.run(example.text).told() == example.told())


def show_no_messages(sweep):
    """What tells no message stays as it is; and so does a text that was shown."""
    for text in NO_MESSAGES:
        ran = sweep.run(text)
        sweep.claim(f"{text[:20]} stays", ran.told() == (text, DONE, b"") and ran.left_nothing())


def show_bytes(sweep):
    """Bytes that are no message are shown with the reason, whatever their number; also those of a last line without a
    newline."""
    for n in (1, 2, 19, 75, 76, 4096, 8192, 100_000):
        for end in (b"\n", b""):
            told = b"no message: " + b"00" * n + b"\n the length is wrong\n", DONE, b""
            sweep.claim(f"{n} bytes that are no message", sweep.run(b"msg " + b"00" * n + end).told() == told)


def read_in_pieces(sweep, path):
    """Bytes that come and go in pieces change nothing; each read has the same room, and none is made without need."""
    example = at(path)
    for piece in (1, 7, READ_ROOM):
        ran = sweep.run(example.text, piece=piece)
        reads = ran.counts["reads"], ran.counts["least_room"], ran.counts["most_room"]
        holds = ran.told() == example.told() and reads == (reads_of(len(example.text), piece), READ_ROOM, READ_ROOM)
        sweep.claim(f"{path.stem} in words: pieces of {piece}", holds and ran.left_nothing())


def fail_each_read(sweep, path):
    """The read k fails, for each k up to the one that tells the end: lines that were read whole are shown."""
    example, piece = at(path), 7
    for call in range(1, reads_of(len(example.text), piece) + 1):
        ran = sweep.run(example.text, fail_read=call, piece=piece)
        told = example.ended(piece * (call - 1)), READ_FAULT, FAULT_TEXT[READ_FAULT]
        sweep.claim(f"{path.stem} in words: read {call} fails", ran.told() == told and ran.left_nothing())


def fail_each_write(sweep, path, fault):
    """Each write of one byte fails, or takes none: in the copy that goes on from there no more is written."""
    example = at(path)
    ran, size = sweep.run(example.text, one_byte=1, **{fault: 1}), len(example.whole())
    told = example.whole(), DONE, FAULT_TEXT[WRITE_FAULT] * size
    copies = ran.counts["copies"], ran.counts["copies_well"]
    sweep.claim(f"{path.stem} in words: {fault}", ran.told() == told and copies == (size, size) and ran.left_nothing())


def refuse_each_allocation(sweep, path, fault):
    """The allocation k is refused (or k and all later ones), for each k that the run has: lines are shown up to one that
    had no memory, and the status says why."""
    example = at(path)
    fronts = {b"".join(example.pieces[:n]) for n in range(len(example.pieces) + 1)}
    calls = sweep.run(example.text).counts["allocations"]
    sweep.claim(f"{path.stem} in words: allocations", calls > 0)
    for call in range(1, calls + 1):
        ran = sweep.run(example.text, **{fault: call})
        told = ran.wrote in fronts and (ran.status, ran.error) == (NO_MEMORY, FAULT_TEXT[NO_MEMORY])
        sweep.claim(f"{path.stem} in words: {fault} {call}", told and ran.counts["faults"] > 0 and ran.left_nothing())


def show_each_line_at_once(sweep, path):
    """Each line is shown before the next one is sent."""
    example = at(path)
    holds = is_in_step(sweep, zip(lines_of(example.text), example.pieces), DONE)
    sweep.claim(f"{path.stem} in words: line by line", holds)


def fail_each_read_of_a_file(sweep, path):
    """FILE is read as standard input is, which is left alone."""
    example, text = at(path), Path(folder_of(sweep, {"text": path.read_bytes()}), "text")
    for call in range(1, reads_of(len(example.text), READ_ROOM) + 1):
        ran = sweep.run(b"x\n", [text], reads_of=FIRST_OPENED, fail_read=call)
        told = example.ended(READ_ROOM * (call - 1)), READ_FAULT, FAULT_TEXT[READ_FAULT]
        sweep.claim(f"{path.stem} in words: read {call} of FILE fails", ran.told() == told and ran.left_nothing())


def statuses_in(page):
    items = page.split(".Sh EXIT STATUS")[1].split("\n.El")[0].split("\n.It ")[1:]
    return {int(item.split()[0]): "".join(re.findall(r"\.Ql (routeshow: [a-z ]+[a-z])", item)) for item in items}


def compare_statuses(sweep):
    """The manual page has the statuses and texts of the program; and a slip of the pen is noticed."""
    page, wanted = PAGE.read_text(), {status: text.decode().strip() for status, text in FAULT_TEXT.items()} | {1: ""}
    del wanted[BAD_LINE]
    sweep.claim("the statuses of the manual page", statuses_in(page) == wanted)
    for old, new in ((".It 5\n", ".It 6\n"), (".Ql routeshow: read fault", ".Ql routeshow: fault")):
        holds = page.count(old) == 1 and statuses_in(page.replace(old, new)) != wanted
        sweep.claim(f"a slip of the pen: {new.strip()}", holds)


def show_what_pages_show(sweep, folder):
    """The manual page's example, and README's first script: the reply to its GET, in words."""
    given, shown = PAGE.read_text().split("$ routeshow << 'END'\n")[1].split(".Ed\n")[0].split("END\n")
    sweep.claim("the manual page's example", sweep.run(given.encode()).told() == (shown.encode(), DONE, b""))
    _, shown, front = blocks(README.read_text().split("## A first script\n")[1].split("\n## ")[0])
    reply = Path(folder, "one-get.transcript").read_bytes().splitlines(keepends=True)[-2]
    told = sweep.run(reply).told() == (shown.encode(), DONE, b"")
    sweep.claim("README's first script in words", told and reply.startswith(front.strip().removesuffix("...").encode()))
