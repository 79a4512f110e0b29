"""The package for Python: what in_python.py tries from within, its documentation, its examples, and how pip installs it."""
import os
import re
import sys
import tempfile
from pathlib import Path

import daemon
from callers import first_script, ran, told_of
from prototypes import PYTHON

IN_PYTHON, HEAP = (Path(__file__).with_name(name) for name in ("in_python.py", "heap.c"))
OF_HEAP = ("leaks", "deaf")
# How many examples one run is given.
SHARE = 4
# The functions of the heap that stand before those of the C library.
PRELOADED = [
    *(f"-D__wrap_{name}={name}" for name in ("malloc", "realloc", "free")),
    *(f"-D__real_{name}=__libc_{name}" for name in ("malloc", "realloc", "free")),
    "-DHEAP_TO=1",
]


def environment(sweep, **more):
    """That in which the package finds the shared object."""
    path = os.pathsep.join(filter(None, [str(PYTHON), os.environ.get("PYTHONPATH")]))
    own = {"PYTHONPATH": path, "HOISKEND_LIB": str(sweep.objects()), "PYTHONDONTWRITEBYTECODE": "1"}
    return {**os.environ, **own, **more}


def try_within(sweep, what, *names):
    """What in_python.py claims is claimed."""
    heap = Path(tempfile.mkdtemp(dir=sweep.folder), "heap.so")
    built = ran(os.environ.get("CC", "cc"), "-O2", "-shared", "-fPIC", *PRELOADED, "-o", heap, HEAP)
    wrong = sweep.wrong if sweep.wrong in OF_HEAP else "right"
    within = environment(sweep, LD_PRELOAD=str(heap))
    wrote, _, error = ran(sys.executable, IN_PYTHON, wrong, what, *names, env=within)
    lines = wrote.decode().splitlines() or [""]
    count = re.fullmatch(r"(\d+) passed, (\d+) failed", lines[-1])
    sweep.claim(f"in Python: {what}: {(built[2] + error)[-900:].decode()}", count is not None and int(count[1]) > 0)
    if count:
        sweep.add(int(count[1]), [f"in Python: {line[7:]}" for line in lines[:-1] if line.startswith("FAILED ")])


def run_examples(sweep):
    """The first script prints its transcript, and the daemon's test passes, as a program and by pytest."""
    examples, found = PYTHON / "examples", environment(sweep)
    wrote, status, error = ran(sys.executable, examples / "first_script.py", env=found)
    sweep.claim(f"first_script.py: {error[-900:].decode()}", (wrote, status) == (told_of(sweep, first_script()), 0))
    told = ran(sys.executable, examples / "test_daemon.py", env=found)
    sweep.claim(f"test_daemon.py: {told[2][-900:].decode()}", told == (b"the daemon's test passes\n", 0, b""))
    if ran(sys.executable, "-c", "import pytest", env=found)[1] != 0:
        sweep.skip("pytest")
        return
    words = ("-m", "pytest", "-q", "-p", "no:cacheprovider", examples / "test_daemon.py")
    wrote, status, _ = ran(sys.executable, *words, env=found, cwd=sweep.folder)
    tests = len(re.findall(r"^def test_", (examples / "test_daemon.py").read_text(), re.M))
    sweep.claim(f"pytest: {wrote[-900:].decode()}", status == 0 and f"{tests} passed".encode() in wrote)


def run_page(sweep):
    """The program that the page for the authors of daemons shows first prints what it shows behind it."""
    (program, shown), _ = daemon.programs()
    told = ran(sys.executable, "-c", program, env=environment(sweep))
    sweep.claim(f"the first program of DAEMON.md: {told[2][-900:].decode()}", told == (shown.encode(), 0, b""))


def install(sweep):
    """pip installs the package without a network, with the shared object or without; and it runs there."""
    if ran(sys.executable, "-m", "pip", "--version")[1] != 0:
        sweep.skip("pip")
        return
    plain = {name: value for name, value in os.environ.items() if name not in ("HOISKEND_LIB", "PYTHONPATH")}
    plain["PYTHONDONTWRITEBYTECODE"] = "1"
    found, told = {"HOISKEND_LIB": str(sweep.objects())}, told_of(sweep, first_script())
    for made, run in ((found, {}), ({}, found)):
        room = tempfile.mkdtemp(dir=sweep.folder)
        words = ("-m", "pip", "install", "--quiet", "--no-index", "--disable-pip-version-check", "--target", room, PYTHON)
        done = ran(sys.executable, *words, env={**plain, **made})
        sweep.claim(f"pip: {done[2][-900:].decode()}", done[1] == 0)
        there = {**plain, **run, "PYTHONPATH": room}
        wrote, status, error = ran(sys.executable, PYTHON / "examples" / "first_script.py", env=there)
        sweep.claim(f"the installed package: {error[-900:].decode()}", (wrote, status) == (told, 0))


def find_none(sweep):
    """Where there is no shared object the package says so."""
    told = ran(sys.executable, "-c", "import hoiskend", env=environment(sweep, HOISKEND_LIB=str(sweep.folder)))
    sweep.claim("no shared object", told[1] == 1 and b"ImportError: there is no libhoiskend.so.0" in told[2])


def check_types(sweep):
    """Its type hints hold, where there is a mypy."""
    if ran(sys.executable, "-m", "mypy", "--version")[1] != 0:
        sweep.skip("mypy")
        return
    words = ("-m", "mypy", "--strict", "--no-error-summary", "--cache-dir", os.devnull, PYTHON / "hoiskend")
    told = ran(sys.executable, *words, cwd=sweep.folder)
    sweep.claim(f"mypy: {told[0][-900:].decode()}", told[1] == 0)


def jobs(examples):
    names = list(examples)
    yield from ((try_within, "examples", *names[at : at + SHARE]) for at in range(0, len(names), SHARE))
    yield try_within, "threads", *names
    yield try_within, "messages", *names
    yield from ((try_within, what) for what in ("misuse", "documentation"))
    yield from ((job,) for job in (run_examples, run_page, install, find_none, check_types))


def trials():
    """What is wrong with the heap or the object, and the sweep that has to notice it."""
    yield "leaks", try_within, "examples", "one-get"
    yield "leaks", try_within, "misuse"
    yield "deaf", try_within, "examples", "one-get"
    yield "mute", try_within, "examples", "one-get"
    yield "mute", try_within, "documentation"
    yield "mute", run_examples
    yield "mute", run_page
    yield "nods", try_within, "examples", "refused-requests"
    yield "nods", try_within, "misuse"
    yield "nods", run_examples
    yield "mumbles", try_within, "messages", "one-get"
    yield "mumbles", try_within, "documentation"
