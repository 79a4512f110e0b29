"""The shared object: its name, programs in C and C++ that are linked with it, and the lines that ./library says."""
import os
import re
import subprocess
import tempfile
from pathlib import Path

from callers import C11, COMPILERS, CPP17, EXAMPLES, SHARED, STRICT, TOP, compiled, first_script, is_there, programs, ran
from callers import run_each_call, shown_code, told_of
from manual import README
from prototypes import compare_both

NAME = "libhoiskend.so.0"


def names_in(file, kind):
    """What an object says of its own name (SONAME), or of those that it wants (NEEDED)."""
    told = ran("objdump", "-p", file)[0].decode()
    return [line.split()[1] for line in told.splitlines() if line.split()[:1] == [kind]]


def have_its_name(sweep):
    """The object is called by loaders as the version says."""
    folder, version = sweep.objects(), (TOP / "tools" / "hoiskend.pc").read_text().split("Version: ")[1]
    sweep.claim("the version's first number", NAME.rsplit(".", 1)[1] == version.split(".")[0])
    sweep.claim("the object's name", names_in(folder / NAME, "SONAME") == [NAME])
    sweep.claim("what the object wants", set(names_in(folder / NAME, "NEEDED")) <= {"libc.so.6"})


def link_programs(sweep):
    """The programs in C, and each call in C and C++, linked with the object: they want the object, and tell what they should."""
    found = {"env": {**os.environ, "LD_LIBRARY_PATH": str(sweep.objects())}}
    for compiler in filter(lambda name: is_there(sweep, name), COMPILERS):
        run_each_call(sweep, compiler, CPP17 if compiler.endswith("++") else C11, SHARED, **found)
    compiler = os.environ.get("CC", "cc")
    for source, others, given, told in programs(sweep):
        if not others:
            program = compiled(sweep, compiler, source, *C11, *STRICT, linked=SHARED)
            holds = NAME in names_in(program, "NEEDED") and ran(program, input=given, **found) == (told, 0, b"")
            sweep.claim(f"{source.name} with {SHARED}", holds)
    link_by_name(sweep, found)


def link_by_name(sweep, found):
    """-lhoiskend takes the object where a folder has it by the linker's name, and no archive."""
    folder = Path(tempfile.mkdtemp(dir=sweep.folder))
    (folder / "libhoiskend.so").symlink_to(sweep.objects() / NAME)
    words = [*C11, *STRICT, f"-I{sweep.out / 'include'}", EXAMPLES / "first_script.c", f"-L{folder}", "-lhoiskend"]
    built = ran(os.environ.get("CC", "cc"), *words, "-o", folder / "program")
    told = ran(folder / "program", **found)
    holds = NAME in names_in(folder / "program", "NEEDED") and told == (told_of(sweep, first_script()), 0, b"")
    sweep.claim(f"first_script.c with -lhoiskend: {built[2][-300:]}", holds)


def backend_of(sweep):
    """The compiler of the library that is tried, where its folder says so."""
    return sweep.out.name if sweep.out.name in ("llvm", "rattle") else "llvm"


def run_said_lines(sweep):
    """The lines that ./library says are enough to compile README's program, and to run a program in Python; and that of
    README runs the daemon's test."""
    if not is_there(sweep, "pkg-config"):
        return
    room = Path(tempfile.mkdtemp(dir=sweep.folder))
    environment = {**os.environ, "BACKEND": backend_of(sweep)}
    wrote, status, error = ran(TOP / "library", room / "laid", env=environment)
    lines = [line for line in wrote.decode().splitlines() if line.startswith(("cc ", "HOISKEND_LIB="))]
    sweep.claim(f"what ./library says: {error[-300:].decode()}", status == 0 and len(lines) == 2)
    (room / "prog.c").write_text(dict(shown_code())["README"])
    (room / "prog.py").write_text((TOP / "bindings" / "python" / "examples" / "first_script.py").read_text())
    plain = {name: value for name, value in os.environ.items() if name not in ("HOISKEND_LIB", "PKG_CONFIG_PATH")}
    plain["PYTHONDONTWRITEBYTECODE"] = "1"
    told = [b"out of interface 1\n", told_of(sweep, first_script())]
    commands = [*zip([room] * 2, lines, ("; ./prog", ""), told)]
    test = re.search(r"^    (HOISKEND_LIB=\S* PYTHONPATH=.*)$", README.read_text(), re.M)[1]
    commands.append((TOP, test.replace("$PWD/out/lib", str(room / "laid" / "lib")), "", b"the daemon's test passes\n"))
    for folder, line, after, wanted in commands:
        done = subprocess.run(["bash", "-c", line + after], cwd=folder, capture_output=True, env=plain, timeout=300)
        sweep.claim(f"{line}: {done.stderr[-300:].decode()}", (done.stdout, done.stderr) == (wanted, b""))


def take_away(sweep):
    """What `make uninstall` takes away is all that ./library laid."""
    room, backend = Path(tempfile.mkdtemp(dir=sweep.folder)), backend_of(sweep)
    laid = ran(TOP / "library", room, env={**os.environ, "BACKEND": backend})
    there = sorted(str(path.relative_to(room)) for path in room.rglob("*") if not path.is_dir())
    gone = ran("make", "-s", "-C", TOP, "uninstall", f"PREFIX={room}", "DESTDIR=")
    left = [str(path) for path in room.rglob("*") if not path.is_dir()]
    wanted = ["include/hoiskend.h", "lib/libhoiskend.a", f"lib/{NAME}"]
    wanted += ["lib/pkgconfig/hoiskend.pc", "share/man/man3/hoiskend.3"]
    sweep.claim(f"what ./library lays: {there}", laid[1] == 0 and there == wanted)
    sweep.claim(f"what make uninstall leaves: {left}", gone[1] == 0 and not left)


def jobs():
    yield from ((job,) for job in (have_its_name, link_programs, run_said_lines, take_away))


def trials():
    """What is wrong with the object, and the sweep that has to notice it."""
    yield "nameless", have_its_name
    yield "talks", compare_both
    yield "mute", link_programs
    yield "mumbles", link_programs
