"""Reads and writes that fail, that move few bytes, or that never end."""
import os
import select
import subprocess

from runs import BAD_LINE, DONE, FAULT_TEXT, READ_FAULT, WRITE_FAULT, answered_lines, answers, ended_lines

MOST_READS = 2**24
READ_ROOM = 4096
# How long an answer is waited for before it counts as none, in seconds.
PATIENCE = 20


def reads_of(size, piece):
    """How many reads a script of so many bytes takes: those of its pieces, and the one that tells the end."""
    return -(-size // piece) + 1


def read_in_pieces(sweep, example):
    """Bytes that come and go in pieces change nothing; each read has the same room, and none is made without need."""
    for piece in (1, 7, READ_ROOM):
        ran = sweep.run(example.script, piece=piece)
        reads = ran.counts["reads"], ran.counts["least_room"], ran.counts["most_room"]
        holds = ran.told() == example.told() and reads == (reads_of(len(example.script), piece), READ_ROOM, READ_ROOM)
        sweep.claim(f"{example.name}: pieces of {piece}", holds and ran.left_nothing())
    ran = sweep.run(example.script, one_byte=1)
    holds = ran.told() == example.told() and ran.counts["writes"] == len(example.transcript)
    sweep.claim(f"{example.name}: writes of one byte", holds and ran.left_nothing())


def fail_each_read(sweep, example):
    """The read k fails, for each k up to the one that tells the end: lines that were read whole are answered."""
    piece = 7 if len(example.script) < READ_ROOM else READ_ROOM
    pieces = answers(example.transcript)
    for call in range(1, reads_of(len(example.script), piece) + 1):
        ran = sweep.run(example.script, fail_read=call, piece=piece)
        told = b"".join(pieces[: ended_lines(example.script, piece * (call - 1))])
        holds = ran.told() == (told, READ_FAULT, FAULT_TEXT[READ_FAULT]) and ran.counts["faults"] == 1
        sweep.claim(f"{example.name}: read {call} fails", holds and ran.left_nothing())


def fail_each_write(sweep, example, fault):
    """Each write of one byte fails, or takes none: in the copy that goes on from there no more is written."""
    ran, size = sweep.run(example.script, one_byte=1, **{fault: 1}), len(example.transcript)
    told = example.transcript, example.status, FAULT_TEXT[WRITE_FAULT] * size + FAULT_TEXT[example.status]
    copies, wrong = (ran.counts["copies"], ran.counts["copies_well"]), ran.counts["first_wrong"]
    holds = ran.told() == told and copies == (size, size) and ran.left_nothing()
    sweep.claim(f"{example.name}: {fault}, first at byte {wrong}", holds)


def gives(stream, text):
    """Whether the next bytes of a pipe are these, and come without more being sent."""
    while text and select.select([stream], [], [], PATIENCE)[0]:
        piece = os.read(stream.fileno(), len(text))
        if not piece or not text.startswith(piece):
            return False
        text = text[len(piece):]
    return not text


def is_in_step(sweep, turns, status, words=(), behind=b""):
    """Whether the program writes for each line what is wanted of it before the next line is sent, and ends so, with this
    behind all."""
    pipes = {"stdin": subprocess.PIPE, "stdout": subprocess.PIPE, "bufsize": 0}
    with subprocess.Popen([sweep.program, *words], env=sweep.environment(), **pipes) as process:
        holds = True
        for line, wanted in turns:
            process.stdin.write(line)
            holds = holds and gives(process.stdout, wanted)
        process.stdin.close()
        return holds and process.stdout.read() == behind and process.wait() == status


def answer_each_line_at_once(sweep, example):
    """Each line is answered before the next one is sent."""
    lines = [line + b"\n" for line in answered_lines(example.script)]
    holds = is_in_step(sweep, zip(lines, answers(example.transcript)), example.status)
    sweep.claim(f"{example.name}: line by line", holds)


def read_without_end(sweep):
    """A reader that gives newlines for ever is left after 2^24 reads."""
    ran = sweep.run(b"", newlines=1)
    counts = ran.counts["reads"], ran.counts["least_room"], ran.counts["most_room"]
    holds = ran.told() == (b"", READ_FAULT, FAULT_TEXT[READ_FAULT]) and counts == (MOST_READS, READ_ROOM, READ_ROOM)
    sweep.claim("a reader of newlines without end", holds and ran.left_nothing())


def read_a_long_script(sweep):
    """A script of as many bytes as a run may make reads is read to its end, since most reads give many bytes."""
    ran = sweep.run(b"\n" * MOST_READS)
    holds = ran.told() == (b"", DONE, b"") and ran.counts["reads"] == reads_of(MOST_READS, READ_ROOM)
    sweep.claim("a long script in few reads", holds and ran.left_nothing())


def read_a_long_comment(sweep):
    """A comment of 16,500 bytes is passed over, and one of 16,501 is `bad`, with a newline behind it or without."""
    for size, told in ((16_500, (b"", DONE, b"")), (16_501, (b"bad\n", BAD_LINE, FAULT_TEXT[BAD_LINE]))):
        for end in (b"", b"\n"):
            sweep.claim(f"a comment of {size} bytes", sweep.run(b"#" * size + end).told() == told)
