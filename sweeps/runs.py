"""Runs of the program, with faults or without, and what is claimed of them."""
import os
import threading
from dataclasses import dataclass
from pathlib import Path

DONE, USAGE, BAD_LINE, READ_FAULT, WRITE_FAULT, NO_MEMORY = 0, 2, 3, 4, 5, 6
FAULTS = {USAGE: "usage", BAD_LINE: "bad line", READ_FAULT: "read fault", WRITE_FAULT: "write fault", NO_MEMORY: "no memory"}


def fault_texts(program):
    """What standard error says, the whole of it, by the status."""
    return {DONE: b"", **{status: f"{program}: {fault}\n".encode() for status, fault in FAULTS.items()}}


FAULT_TEXT = fault_texts("routesim")
MOST_LINE = 16_500


@dataclass(frozen=True)
class Ran:
    """What a run wrote to standard output and to standard error, its status, and what the library counted: all 0 where
    the program was ended by a signal."""

    wrote: bytes
    status: int
    error: bytes
    counts: dict

    def told(self):
        return self.wrote, self.status, self.error

    def left_nothing(self):
        """Each block of memory was freed, and there were some."""
        return self.counts["allocations"] > 0 and (self.counts["blocks_left"], self.counts["bytes_left"]) == (0, 0)


@dataclass(frozen=True)
class Example:
    """A script with its transcript and its status."""

    name: str
    script: bytes
    transcript: bytes
    status: int

    @staticmethod
    def at(path):
        transcript, status = path.with_suffix(".transcript"), path.with_suffix(".status")
        return Example(path.stem, path.read_bytes(), transcript.read_bytes(), int(status.read_text()))

    def told(self):
        return self.transcript, self.status, FAULT_TEXT[self.status]


class Sweep:
    """A program, the libraries that are loaded before it, and the claims that were made of it."""

    def __init__(self, program, libraries, folder):
        self.program, self.libraries, self.folder = program, libraries, folder
        self.passed, self.failed = 0, []
        self.lock = threading.Lock()

    def environment(self, **faults):
        faults = {name.upper(): str(value) for name, value in faults.items()}
        return {"LD_PRELOAD": ":".join(map(str, self.libraries)), **faults}

    def wrongs(self):
        """The environment by which the program is made wrong; here it isn't."""
        return {}

    def run(self, script, words=(), program=None, **faults):
        """Runs a script on standard input, which is a file: so a read gives all the bytes that it has room for. `words`
        stand behind the program's name; another program may stand in its place."""
        room = Path(self.folder, str(threading.get_ident()))
        room.mkdir(exist_ok=True)
        given, wrote, error, counts = (room / name for name in ("given", "wrote", "error", "counts"))
        counts.unlink(missing_ok=True)
        given.write_bytes(script)
        files = [(given, os.O_RDONLY), *((path, os.O_WRONLY | os.O_CREAT | os.O_TRUNC) for path in (wrote, error))]
        actions = [(os.POSIX_SPAWN_OPEN, number, path, flags, 0o600) for number, (path, flags) in enumerate(files)]
        environment, program = self.environment(counts=counts, **faults), program or self.program
        process = os.posix_spawn(program, [program, *words], environment, file_actions=actions)
        status = os.waitstatus_to_exitcode(os.waitpid(process, 0)[1])
        return Ran(wrote.read_bytes(), status, error.read_bytes(), read_counts(counts))

    def claims(self):
        return self.passed + len(self.failed)

    def claim(self, what, holds):
        with self.lock:
            if holds:
                self.passed += 1
            else:
                self.failed.append(what)

    def add(self, passed, failed):
        """Claims that were made elsewhere: how many hold, and those that don't."""
        with self.lock:
            self.passed += passed
            self.failed += failed


class Counts(dict):
    def __missing__(self, name):
        return 0


def read_counts(path):
    if not path.exists():
        return Counts()
    return Counts((name, int(number)) for name, number in map(str.split, path.read_text().splitlines()))


def answered_lines(script):
    """The lines of a script that give an answer, without their newlines."""
    lines = script.split(b"\n")
    if lines[-1] == b"":
        lines.pop()
    return [line for line in lines if line and not (line.startswith(b"#") and len(line) <= MOST_LINE)]


def answers(transcript):
    """The transcript cut into answers: `msg` lines belong to the answer that follows them."""
    cut, begun = [], b""
    for line in transcript.splitlines(keepends=True):
        begun += line
        if not line.startswith(b"msg "):
            cut.append(begun)
            begun = b""
    return cut


def ended_lines(script, size):
    """How many answered lines have their newline among the first bytes."""
    whole = script[: script.rfind(b"\n", 0, size) + 1]
    return len(answered_lines(whole))
