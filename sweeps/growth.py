"""Where the sources ask for memory, and where a count of what was refused begins. Contracts speak of one count (`Memory`): a function
that began one of its own, or grew a vector by itself, could swallow that it was refused."""
import re
from pathlib import Path

CRATES = Path(__file__).resolve().parent.parent / "crates"
# the crate whose calls all others ask by, and the benchmark's, of which nothing is claimed
APART = {"memory", "bench_main"}

# Where a count begins: a session of the library, and what has no session; and what the programs share, or do before they run.
BEGINS = {
    "conv_main/src/main.rt",
    "hoiskend/src/calls.rt",
    "hoiskend/src/session.rt",
    "hoiskend/src/show.rt",
    "lab_main/src/main.rt",
    "program_ends/src/words.rt",
    "route_main/src/main.rt",
    "show_main/src/main.rt",
}
# What a program writes through, which is asked for before it runs.
ASKS = {"route_main/src/program.rt", "show_main/src/program.rt"}

BEGIN = re.compile(r"\bMemory::new\(\)")
# a form that is its counted one under a count of its own, which nobody below it sees
UNCOUNTED = re.compile(r"fn (\w+)(?:<[^>]*>)?\((?:(?!\n    \}|\n\}).)*\b\1_counted\([^;{}]*&mut Memory::new\(\)\)\s*\}", re.DOTALL)
ASK = re.compile(r"\b(?:Vec|VecDeque|String|BufWriter|BufReader)::with_capacity\(|\bvec!\[|\bBox::|\.to_vec\(")
CALLS = r"(?:push|extend|extend_from_slice|resize|reserve|reserve_exact|insert|append)"
GROW = re.compile(rf"(?<!\bmemory)\.{CALLS}\([^;{{}}]*?\)\s*(?:\?|\.(?:is_ok|is_err|ok|unwrap_or\w*)\b)")
# the same where what is answered is taken apart, or is let go
TAKEN = re.compile(
    r"(?:\blet\s+(?:_|(?:Ok|Err)\(.*?\))\s*=|\bmatch)"
    rf"\s[^;{{}}]*(?<!\bmemory)\.{CALLS}\([^;{{}}]*?\)(?=\s*(?:;|\{{|else\b))"
)
# what is asked for under the caller's count
BY_COUNT = re.compile(r"\bmemory\s*\)")


def code_of(text):
    """A source without its comments and contracts."""
    return "\n".join(line.split("//")[0] for line in text.splitlines() if not re.match(r"\s*(ghost|requires|ensures)\b", line))


def faults(name, text):
    """What of a source asks for memory past the count of its caller."""
    code = code_of(text)
    without_forms = UNCOUNTED.sub("", code)
    if name not in BEGINS and BEGIN.search(without_forms):
        yield "begins a count"
    if name not in ASKS and ASK.search(code):
        yield "asks by itself"
    if any(not BY_COUNT.search(found[0]) for form in (GROW, TAKEN) for found in form.finditer(code)):
        yield "sees by itself whether there was memory"


def sources():
    for path in sorted(CRATES.glob("*/src/**/*.rt")):
        name = path.relative_to(CRATES).as_posix()
        if name.split("/")[0] not in APART and "test" not in name.split("/", 2)[2]:
            yield name, path.read_text()


def ask_by_one_count(sweep):
    """No source but those named begins a count, asks by itself, or sees by itself whether memory was refused."""
    found = [f"{name} {fault}" for name, text in sources() for fault in faults(name, text)]
    sweep.claim(f"sources that ask past the count: {found}", not found)
    begin = {name for name, text in sources() if BEGIN.search(UNCOUNTED.sub("", code_of(text)))}
    sweep.claim(f"counts begin where they are said to: {begin ^ BEGINS}", begin == BEGINS)


# What would swallow a refusal, each in a source that asks for nothing.
IN_SECRET = [
    "    let mut own = Memory::new();\n    let _ = own.reserve(&mut items, 8);\n",
    "    if items.reserve(8).is_err() {\n        return false;\n    }\n",
    "    let _ = items.push(byte).is_ok();\n",
    "    items.extend_from_slice(bytes)?;\n",
    "    let _ = items.reserve(8);\n",
    "    let Ok(()) = items.push(byte) else {\n        return false;\n    };\n",
    "    match items.reserve(8) {\n        Ok(()) => {}\n        Err(_) => return false,\n    }\n",
    "    if let Err(_) = items.push(byte) {\n        return false;\n    }\n",
    "    if items.reserve_exact(8).is_err() {\n        return false;\n    }\n",
    "    let items = Vec::with_capacity(alloc, 8);\n",
    "    fn grow(&mut self) { self.other_counted(&mut Memory::new()) }\n",
]


def notice_a_growth_in_secret(sweep):
    name, text = next((name, text) for name, text in sources() if name == "route_core/src/packets.rt")
    for planted in IN_SECRET:
        sweep.claim(f"it is noticed: {planted.strip()}", any(True for _ in faults(name, f"{text}\nfn planted() {{\n{planted}}}\n")))
