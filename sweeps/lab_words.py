"""The words of the program that tells in words what becomes of lines: its options, whose file they name, and what is told where they
name none; a terminal; the tree as a graph; and its manual page."""
import os
import pty
import re
import select
import subprocess
from dataclasses import dataclass

from asked import HELP, graph, route_of, svg
from lab import UNBEGUN, as_told, fault_of
from manual import TOP
from plain import NUMBERS
from runs import DONE, NO_MEMORY, READ_FAULT, USAGE, WRITE_FAULT, answers, fault_texts
from streams import PATIENCE
from told import DUMP, lines_of, messages_in, shadow_of, without_reasons
from words import GIVEN, NAMED, REFUSED, SCRIPTS, UNOPENED, Reader, folder_of, notice_wrong_scripts, pass_words_on
from words import read_an_unreadable_file, read_words, tell_nobody

PAGE = TOP / "docs" / "routelab.1"
OPTIONS = {"--quiet", "--no-echo", "--dot", "--svg", "--help", "--version"}
# The options that name a file for the tree, and a second reading of what it then has.
PICTURES = {"--dot": graph, "--svg": svg}
VERSION = b"routelab 0.1.0\n"
ASKED = "-h", "--help", "-V", "--version"
ASKS = ["-h"], ["--help"], ["-V"], ["--version"], ["-h", "-x"], ["absent", "--version"], ["--dot", "absent", "--help"]
WITH_OPTIONS = [
    (["-q"], None), (["--quiet", "script"], "script"), (["script", "-q"], "script"), (["--", "script"], "script"),
    (["-q", "--", "-x"], "-x"), (["--dot", "folder/graph", "script"], "script"),
    (["script", "--dot=folder/graph"], "script"), (["--svg", "folder/drawing", "script"], "script"),
    (["--svg=folder/drawing", "script", "--dot=folder/graph"], "script"),
]
UNFIT = [
    ["--dot"], ["script", "--dot"], ["--dot", "a", "--dot", "b"], ["--svg"], ["script", "--svg"], ["--svg=a", "--svg=b"], ["-qq"], ["-q", "--quiet"], ["--no-echo"], ["--no-echo=1"],
    ["--quiet=yes"], ["--qui"], ["--echo"], ["-s", "a"], ["-q", "script", "script"], ["-qx"], ["--no-ech"], ["--Quiet"],
]
# Why a file can't be read, but that it isn't there.
REASONS = {
    **dict.fromkeys(("script/script", "loop", "s" * 300, "s" * 5_000), "Input/output error"), "secret": "Permission denied",
    "folder": "Is a directory",
}
MISTAKE = re.compile(rb"error: [^\n]+\n\n(  tip: [^\n]+\n+)*(Usage: \S+ [^\n]+\n\n)?For more information, try '--help'\.\n")


def is_help(text):
    """Whether a text tells the usage and the options."""
    return b"Usage: " in text and {option.decode() for option in re.findall(rb"--[a-z-]+", text)} == OPTIONS


def is_picture(word):
    """Whether a word asks for a picture of the tree."""
    return os.fsencode(word).split(b"=")[0].decode("latin-1") in PICTURES


@dataclass(frozen=True)
class LabReader(Reader):
    """Of what is written of help and of mistakes only its form is compared: by `usage` and `help` in its place."""

    def fault_of(self, file):
        return fault_of(file, REASONS.get(file, "No such file").encode())

    def told_as(self, status):
        return b"", status, self.fault_of("secret") if status == READ_FAULT else super().told_as(status)[2]

    def forms(self):
        """Each form of words, and what is told of it; those last that ask for a picture."""
        return sorted(self.all_forms(), key=lambda form: any(is_picture(word) for word in form[0]))

    def all_forms(self):
        named = [(words, file) for words, file in [*NAMED, *WITH_OPTIONS]]
        yield from (([*self.before, *words], self.told_of(SCRIPTS.get(file, GIVEN))) for words, file in named)
        yield from (([*self.before, *words], (b"", READ_FAULT, self.fault_of(words[-1]))) for words in UNOPENED)
        mistakes = [words for words in REFUSED if words[0] not in ASKED] + UNFIT
        yield from (([*self.before, *words], self.told_as(USAGE)) for words in mistakes)
        for words in ASKS:
            asked = next(word for word in words if word in ASKED)
            yield words, (VERSION if asked in ("-V", "--version") else b"help\n", DONE, b"")

    def run(self, folder, command, environment, **how):
        wrote, status, error = super().run(folder, command, environment, **how)
        if is_help(wrote):
            wrote = b"help\n"
        if error is not None:
            error = MISTAKE.sub(fault_texts(self.name)[USAGE], error)
        return wrote, status, error


ROUTELAB = LabReader("routelab", b"?tree\n", b"    the table is empty\n", ("--no-echo",))


def refuse_memory_of_words(sweep, reader):
    """The allocation k is refused (or k and all later ones), for each k: the status says so, and nothing is written; what is
    wrong with words may be told all the same."""
    folder = folder_of(sweep, {"empty": b""})
    for words, status in (
        ([], DONE), (["-q"], DONE), ([folder / "empty"], DONE), ([folder / "absent"], READ_FAULT), (["-x"], USAGE),
        ([folder / "empty", "b"], USAGE), ([b"\xff"], USAGE), (["--help"], DONE), (["--version"], DONE), (["--dot"], USAGE),
    ):
        plain = sweep.run(b"", words)
        sweep.claim(f"{reader.name} {words}", plain.status == status and plain.counts["allocations"] > 0)
        for fault in ("refuse_alloc", "refuse_from"):
            for call in range(1, plain.counts["allocations"] + 1):
                ran = sweep.run(b"", words, **{fault: call})
                holds = (ran.wrote, ran.status) == (b"", NO_MEMORY) and ran.error in UNBEGUN
                sweep.claim(f"{reader.name} {words}: {fault} {call}", holds and ran.counts["faults"] > 0 and ran.left_nothing())


# ---- a terminal

END = b"\x04"


def prompt(number):
    return b"%d> " % number


def until_prompt(stream):
    wrote = b""
    while not wrote.endswith(b"> ") and select.select([stream], [], [], PATIENCE)[0]:
        piece = os.read(stream.fileno(), 1 << 16)
        if not piece:
            break
        wrote += piece
    return wrote


def typed(sweep, lines, words=()):
    """Of a program whose standard input is a terminal at which these are typed, each behind a prompt: what it writes up to each
    prompt and behind the last, its status and what it tells on standard error."""
    own, other = pty.openpty()
    pipes = {"stdin": other, "stdout": subprocess.PIPE, "stderr": subprocess.PIPE, "bufsize": 0}
    with subprocess.Popen([sweep.program, *words], env=sweep.environment(), **pipes) as process:
        os.close(other)
        wrote = []
        for line in lines:
            wrote.append(until_prompt(process.stdout))
            os.write(own, line)
        rest, error = process.communicate()
    os.close(own)
    return [*wrote, rest], process.returncode, error


def type_lines(sweep, sim, given):
    """At a terminal there is a prompt with its number before each line, and no line is shown again; its user ends it, or `?quit`."""
    told, lines = given.told(sim), [line + b"\n" for line in lines_of(given.script)]
    for words, shows in (((), {"echo": False}), (("-q",), {"echo": False, "done": False})):
        texts = [b"", *told.texts(**shows)]
        wanted = [*(text + prompt(number) for number, text in enumerate(texts, 1)), b"\n" + told.ending()]
        wrote, status, error = typed(sweep, [*lines, END], words)
        holds = [*map(without_reasons, wrote)] == wanted and (status, error) == (told.status(), b"")
        sweep.claim(f"{given.name} at a terminal {words}", holds)
    wrote = [prompt(1), b"    the table is empty\n" + prompt(2), b""], DONE, b""
    sweep.claim("?quit at a terminal", typed(sweep, [b"?tree\n", b"?quit\n"]) == wrote)
    path = folder_of(sweep, {"text": b"?tree\n"}) / "text"
    shown = [b"1: ?tree\n    the table is empty\n"], DONE, b""
    sweep.claim("a file, and a terminal that is not read", typed(sweep, [], [path]) == shown)


# ---- pictures of the tree


def routes_behind(sim, given, told):
    """The routes that there are behind all lines that are told."""
    shadows = [shadow_of(line) for line in lines_of(given.script)[: len(told.pieces)]]
    return [route_of(message) for message in messages_in(answers(sim.run(b"\n".join([*shadows, DUMP])).wrote)[-1])]


def write_pictures(sweep, sim, given):
    """The tree that there is at the end is written, in the place of what was in the file; all else is as it is without."""
    told, folder = given.told(sim), folder_of(sweep, {"picture": b"x" * 100_000})
    plain, routes = (told.whole(), told.status(), b""), routes_behind(sim, given, told)
    for option, picture in PICTURES.items():
        for name in ("picture", "other"):
            ran = sweep.run(given.script, [option, folder / name])
            holds = as_told(ran) == plain and ran.left_nothing()
            sweep.claim(f"{given.name} {option}", holds and (folder / name).read_bytes() == picture(routes).encode())
        for place, why in (
            ("/dev/full", b"No space left on device"), (folder / "absent" / "picture", b"No such file"), (folder, b"Is a directory"),
        ):
            ran = sweep.run(given.script, [option, place])
            holds = as_told(ran) == (told.whole(), WRITE_FAULT, fault_of(place, why)) and ran.left_nothing()
            sweep.claim(f"{given.name} {option} {place}", holds)
    for option, form in (("--dot", "dot"), ("--svg", "svg")):
        stored = (TOP / "examples" / given.name).with_suffix(f".{form}")
        if stored.exists():
            sweep.claim(f"{given.name} {option} as it is stored", stored.read_bytes() == PICTURES[option](routes).encode())
    files = {option: folder / option for option in PICTURES}
    ran = sweep.run(given.script, [word for option in files.items() for word in option])
    same = all(file.read_bytes() == PICTURES[option](routes).encode() for option, file in files.items())
    sweep.claim(f"{given.name} in each picture at once", as_told(ran) == plain and same)


def write_no_picture(sweep, given, option):
    """Where a run ends with a fault nothing is written: the read k fails, or the allocation k is refused, for each k."""
    path = folder_of(sweep, {}) / "picture"
    calls = sweep.run(given.script, [option, path]).counts
    for fault, call in (*(("fail_read", call + 1) for call in range(calls["reads"])),
                        *(("refuse_alloc", call + 1) for call in range(calls["allocations"]))):
        path.unlink(missing_ok=True)
        ran = sweep.run(given.script, [option, path], **{fault: call})
        is_fault = ran.status == (READ_FAULT if fault == "fail_read" else NO_MEMORY)
        is_told = is_fault or fault == "refuse_alloc" and ran.status == given.status
        holds = is_told and path.exists() != is_fault and ran.left_nothing()
        sweep.claim(f"{given.name}, nothing written by {option}: {fault} {call}", holds)


def leave_the_file(sweep, given, option):
    """Where standard output takes nothing, what is in the file stays there."""
    path = folder_of(sweep, {"picture": b"x"}) / "picture"
    command, how = [sweep.program, option, path], {"stderr": subprocess.PIPE, "env": sweep.environment()}
    with open("/dev/full", "wb") as full:
        ran = subprocess.run(command, input=given.script, stdout=full, **how)
    fault = fault_of("standard output", b"No space left on device")
    holds = (ran.returncode, ran.stderr) == (WRITE_FAULT, fault) and path.read_bytes() == b"x"
    sweep.claim(f"{given.name}, nothing written by {option}: standard output is full", holds)


def end_with_its_reader(sweep):
    """Where nobody reads what is told any more, that is no fault to tell of."""
    own, other = os.pipe()
    os.close(own)
    how = {"stdin": subprocess.DEVNULL, "stdout": other, "stderr": subprocess.PIPE}
    with subprocess.Popen([sweep.program], **{**how, "stdin": subprocess.PIPE}) as process:
        os.close(other)
        _, error = process.communicate(b"?tree\n")
    sweep.claim("nobody reads what is told", error == b"" and process.returncode != DONE)


# ---- the manual page


def items(page, head):
    return page.split(head)[1].split("\n.El")[0].split("\n.It ")[1:]


def statuses_in(page):
    return [int(item.split()[0]) for item in items(page, ".Sh EXIT STATUS")]


def options_in(page):
    return {f"--{name}" for name in re.findall(r"^Fl (?:. , )?-([a-z-]+)", "\n".join(items(page, "The options are:")), re.M)}


def questions_in(page):
    """The questions, each with whether it is about something."""
    heads = [item.split("\n")[0].split() for item in items(page, ".Ss Questions")]
    return [(re.sub(r"\W", "", head[1]), "Ar" in head) for head in heads]


def flags_in(page):
    shown = page.split("commas between the names:\n")[1].split(".It ")[0]
    return set(re.findall(r"[A-Z][A-Z0-9]+", shown))


QUESTIONS = [(name, bool(about)) for name, about in re.findall(r"^\?(\w+)( A| VERB)? ", HELP, re.M)]


def differences(page):
    same = {
        "statuses": statuses_in(page) == [*range(7)], "options": options_in(page) == OPTIONS,
        "questions": questions_in(page) == QUESTIONS, "flags": flags_in(page) == {name.decode() for name in NUMBERS},
    }
    return [what for what, holds in same.items() if not holds]


# Slips of the pen, each in one place.
SLIPS = [
    (".It 5\n", ".It 7\n", "statuses"), (".It Fl -no-echo\n", ".It Fl -silent\n", "options"),
    (".It Ic \\&?tree\n", ".It Ic \\&?trie\n", "questions"), (" XRESOLVE , ", " RESOLVE , ", "flags"),
]


def compare_the_page(sweep):
    """The manual page has the statuses, options, questions and flags of the program; and slips of the pen are noticed."""
    page, wrong = PAGE.read_text(), differences(PAGE.read_text())
    sweep.claim(f"the manual page: {', '.join(wrong)}", not wrong)
    for old, new, what in SLIPS:
        sweep.claim(f"a slip of the pen: {new.strip()}", page.count(old) == 1 and what in differences(page.replace(old, new)))


def tell_what_the_page_shows(sweep):
    """The manual page's example."""
    given, wrote = PAGE.read_text().split("$ routelab << 'END'\n")[1].split(".Ed\n")[0].split("END\n")
    sweep.claim("the manual page's example", sweep.run(given.encode()).told() == (wrote.encode(), DONE, b""))


def jobs(reader, scripts):
    each = read_words, tell_nobody, read_an_unreadable_file, refuse_memory_of_words, notice_wrong_scripts
    yield from ((job, reader) for job in each)
    yield from ((pass_words_on, reader, script) for script in scripts)
    yield from ((job,) for job in (compare_the_page, tell_what_the_page_shows))
