"""Programs that link the library: those of examples/c, the Rust package, and what the pages show of it."""
import os
import re
import shutil
import subprocess
import tempfile
from pathlib import Path

from manual import README, blocks
from prototypes import Sources, functions_in_header

TOP = Path(__file__).resolve().parents[1]
EXAMPLES, RUST = TOP / "examples" / "c", TOP / "bindings" / "rust"
HEADER, PAGE = TOP / "include" / "hoiskend.h", TOP / "docs" / "hoiskend.3"
EACH_CALL, HEAP = (Path(__file__).with_name(name) for name in ("each_call.c", "heap.c"))
DISPLAY, REFUSED = (Path(__file__).with_name(name) for name in ("display.rs", "refused.rs"))

C11, CPP11, CPP17 = ["-std=c11"], ["-std=c++11", "-x", "c++"], ["-std=c++17", "-x", "c++"]
STRICT = ["-Wall", "-Wextra", "-pedantic", "-Werror", "-O2"]
WRAPPED = "-Wl,--wrap=malloc,--wrap=realloc,--wrap=free"
REFUSING = ["-Wl,--wrap=malloc,--wrap=realloc"]
SANITIZED = ["-fsanitize=address,undefined", "-fno-sanitize-recover=all", "-g"]
COMPILERS = {"gcc": [C11], "clang": [C11], "g++": [CPP11, CPP17], "clang++": [CPP11, CPP17]}
ARCHIVE, SHARED = "-lhoiskend", "-l:libhoiskend.so.0"
VALGRIND = ["valgrind", "-q", "--error-exitcode=99", "--leak-check=full", "--show-leak-kinds=definite,possible"]


def is_there(sweep, program, *words):
    """Whether a program can be used here; else what wants it is skipped, and told so."""
    found = shutil.which(program) is not None
    if found and words:
        with tempfile.TemporaryDirectory() as room:
            source, made = Path(room, "empty.c"), Path(room, "empty")
            source.write_text("int main(void) { return 0; }\n")
            found = ran(program, *words, "-o", made, source)[1] == ran(made)[1] == 0
    if not found:
        sweep.skip(" ".join([program, *words]))
    return found


def ran(*command, **how):
    """What a command wrote, its status, and what it wrote to standard error."""
    try:
        done = subprocess.run([*map(str, command)], capture_output=True, timeout=300, **how)
    except FileNotFoundError:
        return b"", None, b"it isn't there"
    return done.stdout, done.returncode, done.stderr


def compiled(sweep, compiler, source, *words, linked=ARCHIVE):
    """The program of a source, linked with the archive or with the shared object; a warning is an error."""
    made = Path(tempfile.mkdtemp(dir=sweep.folder), "program")
    include, lib = sweep.out / "include", sweep.out / "lib" if linked == ARCHIVE else sweep.objects()
    built = ran(compiler, *words, f"-I{include}", source, "-x", "none", f"-L{lib}", linked, "-o", made)
    sweep.claim(f"{compiler} {' '.join(words)} {Path(source).name}: {built[2][-600:].decode()}", built == (b"", 0, b""))
    return made


def first_script():
    """README's first script."""
    return blocks(README.read_text().split("## A first script\n")[1].split("\n## ")[0])[0].encode()


def told_of(sweep, script):
    """What a transcript has of a script, by hk_line."""
    world = sweep.world()
    text = b"".join(world.line(line)[1] for line in script.split(b"\n"))
    world.close()
    return text


PASSES = b"the daemon's test passes\n"


def said_by(source):
    """What the comment of a program says that it prints."""
    block = re.search(r"^ \*\n((?: \*     .*\n)+)", source.read_text(), re.M)
    return re.sub(r"^ \*     ", "", block[1], flags=re.M).encode()


def programs(sweep):
    """The programs in C, each with the words that it is compiled with, and what it tells of the first script."""
    told = told_of(sweep, first_script())
    yield EXAMPLES / "first_script.c", [], b"", told
    yield EXAMPLES / "script.c", [], first_script(), told
    yield EXAMPLES / "daemon_test.c", REFUSING, b"", PASSES
    yield EXAMPLES / "monitor.c", [], b"", said_by(EXAMPLES / "monitor.c")


def run_programs(sweep, compiler):
    """Each compiler takes them without a warning, and they tell what they should; so with sanitizers."""
    standard, *others = COMPILERS[compiler]
    if not is_there(sweep, compiler):
        return
    for each in (standard, *others):
        run_each_call(sweep, compiler, each)
    is_sanitized = is_there(sweep, compiler, *SANITIZED)
    if is_sanitized:
        run_each_call(sweep, compiler, standard, more=SANITIZED)
    if standard is CPP11:
        return
    kinds = [STRICT, [*STRICT, *SANITIZED]] if is_sanitized else [STRICT]
    for words in kinds:
        for source, others, given, told in programs(sweep):
            program = compiled(sweep, compiler, source, *standard, *words, *others)
            what = f"{source.name} by {compiler} {' '.join(words[-3:])}"
            sweep.claim(what, ran(program, input=given) == (told, 0, b""))


# What the program answers, call by call, where that isn't `Done`.
ANSWERED = {
    "hk_add_route(&w, \"a\", &request)": ["Done", "It is there already"],
    "hk_losing(&w, host)": ["A malformed request", "Done"], "hk_open(&w)": ["Done", "It is there already"],
    "hk_redirect(&w, host, address, address)": ["No route to the host"], "hk_shut(&w, \"a\")": ["Done", "No such socket"],
    "hk_line(&w, line, 4)": ["A line that is no command"],
    "hk_show(out, hk_message_length(out), text, 1, &size)": ["The buffer is too small"],
    "hk_convert(HK_44BSD, HK_OPENBSD, out, hk_message_length(out), there, 1, &size)": ["The buffer is too small"],
    "hk_convert(HK_FREEBSD, HK_44BSD, there, size, out, sizeof out, &size)": ["The length is wrong"],
    "hk_next_as(HK_OPENBSD, out, bytes, &at, there, sizeof there, &size)": ["Done", "A malformed request"],
    "hk_next_as(HK_OPENBSD, out, bytes, &at, there, 1, &size)": ["The buffer is too small"],
    "hk_next_as(HK_OPENBSD, out, 1, &at, there, sizeof there, &size)": ["A malformed request"],
    "hk_write_as(HK_FREEBSD, &w, \"a\", there, size)": ["A malformed request"],
    "hk_message_header(out, HK_HEADER_BYTES, &header)": ["The length is wrong"],
    "hk_message_address(out, hk_message_length(out), HK_RTA_BRD, &part)": ["The address isn't there"],
    "hk_interface_of(&w, 2, &interface)": ["No such interface"],
    "hk_next_address(&w, 1, &at, &own)": ["No such address on the interface"],
    "hk_next_address(&w, 2, &at, &own)": ["No such interface"],
    "hk_socket_at(&w, 1, &opened)": ["No such socket"], "hk_route_of(&w, host, 32, &entry)": ["No such route"],
    "hk_route_of(&w, host, 34, &entry)": ["A malformed request"],
    "hk_message_metric(out, hk_message_length(out), 3, &found)": ["A malformed request"],
    "hk_attach(&w, \"a long name\", HK_LOOPBACK, 24, link, 0)": ["A malformed request"],
}


def run_each_call(sweep, compiler, standard, linked=ARCHIVE, more=(), **how):
    """A program that makes each call once, in C and in C++."""
    program = compiled(sweep, compiler, EACH_CALL, *standard, *STRICT, *more, linked=linked)
    wrote, status, error = ran(program, **how)
    answered = {}
    for call, text in re.findall(r"^(hk_.*): (.*)$", wrote.decode(), re.M):
        answered.setdefault(call, []).append(text)
    wrong = {call: texts for call, texts in answered.items() if texts != ANSWERED.get(call, ["Done"])}
    sweep.claim(f"each call in {compiler}, but {wrong}", (wrong, status, error) == ({}, 0, b""))
    steps = b"1 behind the first, 136 bytes", b"2 messages, 1 at the end", b"1 at the first still"
    sweep.claim(f"message after message in {compiler}", all(step in wrote.splitlines() for step in steps))
    parts = b"kind 4, flags 257, interface 1", b"1 at 76", b"a mask of 8 bits in 5 bytes"
    sweep.claim(f"a message's parts in {compiler}", all(part in wrote.splitlines() for part in parts))
    there = b"le0 with 6 bytes", b"1 address, 1 1", b"a hears 2, of process 100", b"1 packet by 33"
    sweep.claim(f"what is there in {compiler}", all(each in wrote.splitlines() for each in there))
    called = {name.removesuffix("_n") for name in functions_in_header(Sources.of_today().header)}
    sweep.claim("each call is made", called <= set(re.findall(r"hk_\w+", EACH_CALL.read_text())))


def run_all_examples(sweep, examples):
    """The whole routesim in C tells of each example what routesim does, from a file and from standard input."""
    program = compiled(sweep, os.environ.get("CC", "cc"), EXAMPLES / "script.c", *C11, *STRICT)
    for example in examples.values():
        path = Path(tempfile.mkdtemp(dir=sweep.folder), "script")
        path.write_bytes(example.script)
        sweep.claim(f"{example.name} by script.c", ran(program, path) == example.told())
        sweep.claim(f"{example.name} by script.c, piped", ran(program, input=example.script) == example.told())
    folder = path.parent
    sweep.claim("script.c of no file", ran(program, folder / "absent") == (b"", 4, b"routesim: read fault\n"))
    sweep.claim("script.c of a folder", ran(program, folder) == (b"", 4, b"routesim: read fault\n"))
    sweep.claim("script.c of two files", ran(program, path, path) == (b"", 2, b"routesim: usage\n"))
    path.write_bytes(examples["one-get"].script)
    with open("/dev/full", "wb") as full:
        done = subprocess.run([program, path], stdout=full, stderr=subprocess.PIPE)
    told = done.returncode, done.stderr
    sweep.claim("script.c where nothing can be written", told == (5, b"routesim: write fault\n"))


def run_by_valgrind(sweep, examples):
    """Nothing is read that was not written, nothing beyond its block, and nothing is left."""
    if not is_there(sweep, "valgrind"):
        return
    for source, others, given, told in programs(sweep):
        program = compiled(sweep, os.environ.get("CC", "cc"), source, *C11, *STRICT, *others)
        sweep.claim(f"{source.name} by valgrind", ran(*VALGRIND, program, input=given) == (told, 0, b""))
        if source.name == "script.c":
            for name in ("daemons-day", "refusals", "bad-lines", "link-gateway", "dump-and-filter"):
                example = examples[name]
                sweep.claim(f"{name} by valgrind", ran(*VALGRIND, program, input=example.script) == example.told())


def run_by_pkg_config(sweep):
    """What pkg-config says is enough to compile and link; and its version is that of the Rust package."""
    if not is_there(sweep, "pkg-config"):
        return
    environment = {**os.environ, "PKG_CONFIG_PATH": str(sweep.out / "lib" / "pkgconfig")}
    words = ran("pkg-config", "--cflags", "--libs", "hoiskend", env=environment)[0].decode().split()
    made = Path(tempfile.mkdtemp(dir=sweep.folder), "program")
    built = ran(os.environ.get("CC", "cc"), EXAMPLES / "first_script.c", *words, "-o", made)
    sweep.claim(f"by pkg-config: {built[2][-300:]}", built[1] == 0 and ran(made)[0] == told_of(sweep, first_script()))
    version = ran("pkg-config", "--modversion", "hoiskend", env=environment)[0].decode().strip()
    package = re.search(r'^version = "(.*)"', (RUST / "Cargo.toml").read_text(), re.M)[1]
    sweep.claim(f"version {version} and {package}", version == package)


# ---- pages

def shown_code():
    """The lines of C that the header, README and the manual page show, by the page."""
    header = re.search(r"(?:^ \*     .*\n)+", HEADER.read_text(), re.M)
    readme = re.search(r"```c\n(.*?)```", README.read_text(), re.S)
    page = re.search(r"\.Sh EXAMPLES.*?\.Bd -literal[^\n]*\n(.*?)\.Ed", PAGE.read_text(), re.S)
    yield "the header", header[0].replace("\n *     ", "\n").removeprefix(" *     ")
    yield "README", readme[1] if readme else ""
    yield "the manual page", page[1].replace("\\e", "\\") if page else ""


def run_what_pages_show(sweep):
    """The lines of C in the pages compile without a warning, and print the interface that they find."""
    for where, code in shown_code():
        source = Path(tempfile.mkdtemp(dir=sweep.folder), "shown.c")
        text = code if "int main" in code else f"int main(void)\n{{\n{code}\n\treturn 0;\n}}\n"
        includes = "" if "#include" in code else "#include <hoiskend.h>\n#include <stdio.h>\n"
        source.write_text(includes + text)
        program = compiled(sweep, os.environ.get("CC", "cc"), source, *C11, *STRICT)
        sweep.claim(f"what {where} shows", ran(program) == (b"out of interface 1\n", 0, b""))


def compare_page(sweep):
    """The manual page has each function but the counted forms, with its parameters, and each errno; its form is right."""
    page, header = PAGE.read_text(), Sources.of_today().header
    shown = {}
    for name, block in re.findall(r"^\.Fo (hk_\w+)\n((?:\.Fa .*\n)+)\.Fc", page, re.M):
        shown[name] = [" ".join(each.split()) for each in re.findall(r'\.Fa "(.*)"', block)]
    for name, given in re.findall(r"^\.Fn (hk_\w+) ((?:\"[^\"]*\" ?)+)$", page, re.M):
        shown[name] = re.findall(r'"([^"]*)"', given)
    wanted = {}
    for name, given in re.findall(r"^\w[\w ]*[ *](hk_\w+)\(([a-z][^()]*)\)", header, re.M):
        if not name.endswith("_n"):
            wanted[name] = [" ".join(each.split()) for each in given.split(",")]
    wrong = sorted(name for name in {*shown, *wanted} if shown.get(name) != wanted.get(name))
    sweep.claim(f"functions of the manual page, but {wrong}", not wrong and shown)
    errnos = re.findall(r"\bHK_(E[A-Z]+) = (\d+)", header)
    listed = re.findall(r"^\.It (\d+) Er (\w+)$", page, re.M)
    sweep.claim("errnos of the manual page", [(name, number) for number, name in listed] == errnos)
    if is_there(sweep, "mandoc"):
        lint = ran("mandoc", "-Tlint", "-Wwarning", PAGE)
        sweep.claim(f"mandoc: {lint[0]}", lint[:2] == (b"", 0))


# ---- Rust

def run_rust(sweep):
    """The package's tests, which are those of its documentation, and its example; once by pkg-config's file."""
    if not is_there(sweep, "cargo"):
        return
    target = Path(tempfile.mkdtemp(dir=sweep.folder))
    plain = {**os.environ, "CARGO_TARGET_DIR": str(target), "CARGO_NET_OFFLINE": "true"}
    by_folder = {**plain, "HOISKEND_LIB": str(sweep.out / "lib")}
    manifest = ("--manifest-path", RUST / "Cargo.toml", "--offline", "--locked", "--quiet")
    wrote, status, error = ran("cargo", "test", *manifest, env=by_folder)
    found = re.findall(r"test result: ok\. (\d+) passed; 0 failed", wrote.decode())
    sweep.claim(f"cargo test: {(wrote + error)[-900:].decode()}", status == 0 and sum(map(int, found)) > 0)
    by_file = {**plain, "PKG_CONFIG_PATH": str(sweep.out / "lib" / "pkgconfig")}
    for environment in (by_folder, by_file) if is_there(sweep, "pkg-config") else (by_folder,):
        wrote, status, error = ran("cargo", "run", *manifest, "--example", "first_script", env=environment)
        told = told_of(sweep, first_script())
        sweep.claim(f"the example in Rust: {error[-900:].decode()}", (wrote, status) == (told, 0))
    built, package = ran("cargo", "build", *manifest, env=by_folder), target / "debug" / "libhoiskend.rlib"
    refuse_in_rust(sweep, built, package, DISPLAY, 3)
    refuse_in_rust(sweep, built, package, REFUSED, 500)
    unsafe = [path.name for path in (RUST / "src").glob("*.rs") if re.search(r"\bunsafe\b(?!_)", path.read_text())]
    sweep.claim(f"unsafe in {unsafe}", unsafe == ["sys.rs"])


def refuse_in_rust(sweep, built, package, source, least):
    """A program in Rust in which each allocation is refused in turn, and which tells how many were: the display of a message,
    for whose text the library is asked twice and the package once; and the examples by typed calls."""
    if not is_there(sweep, "rustc"):
        return
    heap, made = package.with_name("heap.o"), package.with_name(source.stem)
    counted = ran(os.environ.get("CC", "cc"), "-O2", "-c", "-o", heap, HEAP)
    words = ["-D", "warnings", "--edition", "2021", "--extern", f"hoiskend={package}"]
    linked = ran("rustc", *words, "-C", f"link-arg={heap}", "-C", f"link-arg={WRAPPED}", "-o", made, source)
    wrote, status, error = ran(made, TOP / "examples")
    said = (built[2] + counted[2] + linked[2] + error)[-900:].decode()
    sweep.claim(f"{source.name}: {wrote} refused: {said}", status == 0 and int(wrote) >= least)


def jobs(examples):
    yield run_all_examples, examples
    yield run_by_valgrind, examples
    yield from ((run_programs, compiler) for compiler in COMPILERS)
    yield from ((job,) for job in (run_by_pkg_config, run_what_pages_show, run_rust))
