"""A program's words: whose file they name, and what is told where they name none."""
import os
import shlex
import subprocess
import tempfile
from dataclasses import dataclass
from pathlib import Path

from runs import DONE, FAULT_TEXT, NO_MEMORY, READ_FAULT, USAGE, Ran, Sweep
from runs import answers, ended_lines, fault_texts, read_counts
from streams import READ_ROOM, reads_of

# The files of the folder that a program runs in, by how many lines they have; standard input has one.
SCRIPTS = {"script": 2, "-": 3, "--": 4, "-x": 5, "a script": 6, "Straße": 7}
GIVEN = 1

# Words, and the file that they name, or None for standard input.
NAMED = [
    ([], None),
    (["--"], None),
    (["script"], "script"),
    (["--", "script"], "script"),
    (["script", "--"], "script"),
    (["./" * 200 + "script"], "script"),
    (["a script"], "a script"),
    (["Straße"], "Straße"),
    (["-"], "-"),
    (["--", "-"], "-"),
    (["./-x"], "-x"),
    (["--", "-x"], "-x"),
    (["--", "--"], "--"),
]
UNOPENED = [
    ["absent"], ["help"], ["folder"], ["script/script"], ["loop"], ["s" * 300], ["s" * 5_000], [""], ["--", ""],
    ["--", "-y"],
]
REFUSED = [
    ["-x"], ["-h"], ["-V"], ["-1"], ["-ß"], ["--help"], ["--version"], ["---"], ["--="], ["--script"], ["-=script"],
    ["-x", "script"], ["script", "-x"], ["-", "-x"], ["-x", "--", "script"],
    ["script", "script"], ["-", "-"], ["", ""], ["script", "--", "script"], ["--", "script", "--"], ["--", "--", "--"],
    ["absent", "absent"], ["absent", "-x"], [b"\xff"], ["script", b"\xff"],
]


@dataclass(frozen=True)
class Reader:
    """A program that reads `[FILE]`: its name, a line, what it writes of that, wherever the line stands, and the words that
    stand before FILE."""

    name: str
    line: bytes
    written: bytes
    before: tuple = ()

    def told_of(self, lines):
        return self.written * lines, DONE, b""

    def told_as(self, status):
        return b"", status, fault_texts(self.name)[status]

    def forms(self):
        """Each form of words, and what is told of it."""
        yield from (([*self.before, *words], self.told_of(SCRIPTS.get(file, GIVEN))) for words, file in NAMED)
        yield from (([*self.before, *words], self.told_as(READ_FAULT)) for words in UNOPENED)
        yield from (([*self.before, *words], self.told_as(USAGE)) for words in REFUSED)
        yield from ((self.before[:n], self.told_as(USAGE)) for n in range(len(self.before)))
        yield ["-h", *self.before], self.told_as(USAGE)

    def folder(self, sweep):
        """A folder with the files, a folder, and a link to itself."""
        folder = folder_of(sweep, {name: self.line * lines for name, lines in SCRIPTS.items()})
        Path(folder, "folder").mkdir()
        Path(folder, "loop").symlink_to("loop")
        return folder

    def run(self, folder, command, environment, **how):
        """What a command tells in this folder, with one line on standard input."""
        how = {"stderr": subprocess.PIPE, **how}
        ran = subprocess.run(command, cwd=folder, input=self.line * GIVEN, stdout=subprocess.PIPE, env=environment, **how)
        return ran.stdout, ran.returncode, ran.stderr


ROUTESIM = Reader("routesim", b"read z\n", b"err 9\n")
ROUTESHOW = Reader("routeshow", b"msg 00\n", b"no message: 00\n the length is wrong\n")
DELADDR = b"msg 0014030d0000000000000101000200050000000a\n", b"msg 1400050d0000000001010000020000000a000000\n"
ROUTECONV = Reader("routeconv", *DELADDR, ("4.4bsd", "freebsd"))


def folder_of(sweep, files):
    """A folder of its own, which everybody may read, with these files."""
    folder = Path(tempfile.mkdtemp(dir=sweep.folder))
    folder.chmod(0o755)
    for name, content in files.items():
        Path(folder, name).write_bytes(content)
    return folder


def runnable(sweep, name, content):
    """A file that can be run, in a folder of its own. Another process writes it: what is open for writing here is open too in a
    process that another thread begins meanwhile, and as long as it is the file can't be run."""
    path = Path(folder_of(sweep, {}), name)
    subprocess.run(["sh", "-c", 'cat > "$0" && chmod 755 "$0"', path], input=content, check=True)
    return path


def read_words(sweep, reader):
    """Each form of words names its file, or is told so; and what was allocated is freed."""
    folder = reader.folder(sweep)
    counts = Path(folder, "counts")
    for words, told in reader.forms():
        counts.unlink(missing_ok=True)
        ran = Ran(*reader.run(folder, [sweep.program, *words], sweep.environment(counts=counts)), read_counts(counts))
        sweep.claim(f"{reader.name} {words}", ran.told() == told and ran.left_nothing())


def tell_nobody(sweep, reader):
    """Where standard error takes nothing, or is closed, the rest is as ever."""
    folder = reader.folder(sweep)
    for words, (wrote, status, _) in reader.forms():
        with open("/dev/full", "wb") as full:
            told = reader.run(folder, [sweep.program, *words], {}, stderr=full)[:2]
        closed = reader.run(folder, ["sh", "-c", 'exec "$0" "$@" 2>&-', sweep.program, *words], {})
        sweep.claim(f"{reader.name} {words}: nobody is told", told == closed[:2] == (wrote, status))


def pass_words_on(sweep, reader, script):
    """The script that builds the program tells of each form of words what the program does."""
    folder = reader.folder(sweep)
    for words, told in reader.forms():
        sweep.claim(f"{script.name} {words}", reader.run(folder, [script, *words], os.environ) == told)


# What a script does wrong that passes words on to a program.
WRONG_SCRIPTS = [
    "exec PROGRAM $*", "exec PROGRAM", 'exec PROGRAM "$@" </dev/null', 'exec PROGRAM "$@" 2>/dev/null', 'PROGRAM "$@"; exit 0',
    'exec PROGRAM -- "$@"', 'cd / && exec PROGRAM "$@"', '[ "$1" != -h ] || exit 0; exec PROGRAM "$@"',
]


def notice_wrong_scripts(sweep, reader):
    """Words that are passed on wrongly are noticed; and none is by a script that is right."""
    for text in ('exec PROGRAM "$@"', *WRONG_SCRIPTS):
        script = f"#!/bin/sh\n{text.replace('PROGRAM', shlex.quote(str(sweep.program)))}\n"
        path = runnable(sweep, "script", script.encode())
        tried = Sweep(sweep.program, [], sweep.folder)
        pass_words_on(tried, reader, path)
        sweep.claim(f"trial of pass_words_on: {text}", (text in WRONG_SCRIPTS) == bool(tried.failed) and tried.claims() > 0)


def read_an_unreadable_file(sweep, reader):
    """A file whose mode keeps its reader out; root is nobody here, since no mode keeps root out."""
    folder = folder_of(sweep, {"secret": reader.line})
    program = runnable(sweep, "program", Path(sweep.program).read_bytes())
    how = {"user": "nobody"} if os.geteuid() == 0 else {}
    for mode, told in ((0o444, reader.told_of(1)), (0, reader.told_as(READ_FAULT))):
        Path(folder, "secret").chmod(mode)
        sweep.claim(f"{reader.name}: a file of mode {mode:o}", reader.run(folder, [program, *reader.before, "secret"], {}, **how) == told)


# The descriptor of the file that a program opens first.
FIRST_OPENED = 3


def read_a_file(sweep, example):
    """An example that is FILE is answered, and standard input is not read; and the read k of FILE fails, for each k."""
    path = Path(folder_of(sweep, {"script": example.script}), "script")
    ran = sweep.run(ROUTESIM.line, [path])
    sweep.claim(f"{example.name}: as FILE", ran.told() == example.told() and ran.counts["reads"] == 0)
    pieces, calls = answers(example.transcript), reads_of(len(example.script), READ_ROOM)
    for call in range(1, calls + 2):
        ran = sweep.run(ROUTESIM.line, [path], reads_of=FIRST_OPENED, fail_read=call)
        ended = b"".join(pieces[: ended_lines(example.script, READ_ROOM * (call - 1))])
        fault = (ended, READ_FAULT, FAULT_TEXT[READ_FAULT])
        told, faults = (fault, 1) if call <= calls else (example.told(), 0)
        counts = tuple(ran.counts[name] for name in ("reads", "least_room", "most_room", "faults"))
        holds = ran.told() == told and counts == (min(call, calls), READ_ROOM, READ_ROOM, faults)
        sweep.claim(f"{example.name}: as FILE, read {call} fails", holds and ran.left_nothing())


def refuse_memory_of_words(sweep, reader):
    """The allocation k is refused (or k and all later ones), for each k of a run that takes no memory for an answer:
    want of memory is told then, and nothing else, also of words that are refused where there is memory."""
    folder = folder_of(sweep, {"empty": b""})
    empty, absent = Path(folder, "empty"), Path(folder, "absent")
    for words, status in (
        ([], DONE), ([empty], DONE), ([absent], READ_FAULT), (["-x"], USAGE), ([empty, empty], USAGE), ([b"\xff"], USAGE),
    ):
        words = [*reader.before, *words]
        plain = sweep.run(b"", words)
        sweep.claim(f"{reader.name} {words}", plain.told() == reader.told_as(status) and plain.counts["allocations"] > 0)
        for fault in ("refuse_alloc", "refuse_from"):
            for call in range(1, plain.counts["allocations"] + 1):
                ran = sweep.run(b"", words, **{fault: call})
                holds = ran.told() == reader.told_as(NO_MEMORY) and ran.counts["faults"] > 0 and ran.left_nothing()
                sweep.claim(f"{reader.name} {words}: {fault} {call}", holds)


def jobs(reader, scripts):
    """The sweeps over a program's words, and over those that scripts pass on to it."""
    each = read_words, tell_nobody, read_an_unreadable_file, refuse_memory_of_words, notice_wrong_scripts
    yield from ((job, reader) for job in each)
    yield from ((pass_words_on, reader, script) for script in scripts)
