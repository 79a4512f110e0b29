"""The library's functions in five places: the header, the crate, the declarations in Rust and in Python, and the symbols
of the archive and of the shared object; and its structs and errnos in four. All have to say the same."""
import re
import subprocess
from dataclasses import dataclass, replace
from pathlib import Path

from pages import errnos_in_formats, Pages

TOP = Path(__file__).resolve().parents[1]
CRATE, RUST, PYTHON = TOP / "crates" / "hoiskend", TOP / "bindings" / "rust", TOP / "bindings" / "python"

# What the archive may want of a program, beside the heap.
WANTED = {"malloc", "realloc", "free", "memcpy", "memmove", "memset", "memcmp", "bcmp"}
NO_SYMBOL = {"_GLOBAL_OFFSET_TABLE_"}


def texts_of(*names):
    """The text of these files of the package for Rust; net_route.rs has a length that a struct takes."""
    return "".join((RUST / "src" / name).read_text() for name in names)


@dataclass(frozen=True)
class Sources:
    """The texts that are compared."""

    header: str
    crate: str
    rust: str
    rust_errnos: str
    python: str
    python_errnos: str
    errnos: str

    @staticmethod
    def of_today():
        crate = "".join(path.read_text() for path in sorted(CRATE.glob("src/*.rt")))
        rust, rust_errnos = (texts_of(*names) for names in (("structs.rs", "sys.rs", "net_route.rs"), ("errno.rs",)))
        python, python_errnos = ((PYTHON / "hoiskend" / name).read_text() for name in ("_library.py", "errors.py"))
        errnos = (TOP / "crates" / "sock_addrs" / "src" / "errno.rt").read_text()
        header = (TOP / "include" / "hoiskend.h").read_text()
        return Sources(header, crate, rust, rust_errnos, python, python_errnos, errnos)


def without_comments(text):
    return re.sub(r"/\*.*?\*/|//[^\n]*", " ", text, flags=re.S)


# ---- functions, each as its result and its parameters, which are pairs of a type of C and a name

def split(parameters):
    return [each.strip() for each in parameters.split(",") if each.strip()]


def parameter_in_c(text):
    kind, name = re.fullmatch(r"(.*?)(\w+)", text).groups()
    return " ".join(kind.replace("*", " * ").split()), name


def functions_in_header(header):
    """Those that the archive has; the inline ones are defined in the header."""
    text = re.sub(r"static inline[^{;]*\{.*?\n\}", "", without_comments(header), flags=re.S)
    found = re.findall(r"^(\w+) (hk_\w+)\(([^)]*)\);", text, re.M)
    return {name: (result, [parameter_in_c(each) for each in split(given)]) for result, name, given in found}


NUMBERS = {"u8": "uint8_t", "u16": "uint16_t", "u32": "uint32_t", "u64": "uint64_t", "usize": "size_t", "bool": "bool"}
IN_CRATE = {
    **NUMBERS, "&mut Handle": "hk_world *", "&mut Opening": "hk_world *", "&mut Route": "hk_route *", "&Request": "const hk_request *",
    "&mut Header": "hk_header *", "&mut Address": "hk_sockaddr *", "&mut Interface": "hk_interface *",
    "&mut InterfaceAddress": "hk_ifaddr *", "&mut Socket": "hk_socket *", "&mut Entry": "hk_entry *",
    "&mut u64": "uint64_t *", "&mut usize": "size_t *", "&mut Size": "size_t *",
}
IN_RUST = {
    **NUMBERS, "*mut World": "hk_world *", "*mut Route": "hk_route *", "*const Request": "const hk_request *",
    "*mut Header": "hk_header *", "*mut Sockaddr": "hk_sockaddr *", "*mut Interface": "hk_interface *",
    "*mut Ifaddr": "hk_ifaddr *", "*mut Socket": "hk_socket *", "*mut Entry": "hk_entry *", "*mut u64": "uint64_t *",
    "*mut usize": "size_t *", "*const u8": "const uint8_t *", "*mut u8": "uint8_t *",
}
SLICES = {"&[u8]": "const uint8_t *", "&mut [u8]": "uint8_t *"}
# The last bytes have their number in n, where a call is about them; all others in one that is named for them.
COUNTED_BY_N = {"message", "line", "out"}


def parameters_of(given, types):
    """The parameters in Rust or Rattle as C sees them: a slice is two, and what has no bytes is none."""
    pairs = [[part.strip() for part in each.split(":")] for each in split(given)]
    bytes_last = [name for name, kind in pairs if kind in SLICES][-1:]
    made = []
    for name, kind in pairs:
        if kind in SLICES:
            by_n = [name] == bytes_last and name in COUNTED_BY_N
            made += [(SLICES[kind], name), ("size_t", "n" if by_n else f"{name}_n")]
        elif kind != "Global":
            made.append((types.get(kind, kind), name))
    return made


def functions_in(text, begin, types):
    found = re.findall(begin + r"fn (hk_\w+)\(([^)]*)\)(?: -> (\w+))?", without_comments(text))
    return {name: (types.get(result, "void"), parameters_of(given, types)) for name, given, result in found}


def functions_in_crate(crate):
    return functions_in(crate, r'#\[unsafe\(no_mangle\)\]\n(?:#\[.*\]\n)*pub extern "C" ', IN_CRATE)


def functions_in_rust(rust):
    return functions_in(re.search(r'extern "C" \{(.*?)\n\}', rust, re.S)[1], "", IN_RUST)


# ---- structs, as the types and names of their fields

# The structs by what they are, each with its name in the header, the crate, Rust and Python.
STRUCTS = {
    "route": ("hk_route", "Route", "Route", "Route"),
    "request": ("hk_request", "Request", "Request", "Request"),
    "header": ("hk_header", "Header", "Header", "Header"),
    "address": ("hk_sockaddr", "Address", "Sockaddr", "Sockaddr"),
    "interface": ("hk_interface", "Interface", "Interface", "Interface"),
    "interface's address": ("hk_ifaddr", "InterfaceAddress", "Ifaddr", "Ifaddr"),
    "socket": ("hk_socket", "Socket", "Socket", "Socket"),
    "entry": ("hk_entry", "Entry", "Entry", "Entry"),
}
# What stands in a struct as a whole one.
WITHIN = {"Route": "hk_route"}

def constant(text, name):
    return int(re.search(rf"\b{name}\b(?:: \w+)?(?: =)? (\d+)", text)[1])


def struct_in_header(header, struct):
    fields = re.search(rf"typedef struct {struct} \{{(.*?)\}}", without_comments(header), re.S)[1]
    found = re.findall(r"(\w+) (\w+)(?:\[(\w+)\])?;", fields)
    return [(kind, name, constant(header, size) if size else 1) for kind, name, size in found]


def struct_in(text, struct):
    fields = re.search(rf"pub(?:\(crate\))? struct {struct} \{{(.*?)\n\}}", without_comments(text), re.S)[1]
    found = re.findall(r"pub(?:\(crate\))? (\w+): (?:\[(\w+); (\w+)\]|(\w+)),", fields)
    types = {**NUMBERS, **WITHIN}
    return [(types[kind or of], name, constant(text, n) if n else 1) for name, of, n, kind in found]


def struct_in_python(python, struct):
    fields = re.search(rf"class {struct}\(.*?_fields_ = \[\n(.*?)\n    \]", python, re.S)[1]
    found = re.findall(r'\("(\w+)", (?:ctypes\.c_)?(\w+)(?: \* (\w+))?\)', fields)
    types = {"bool": "bool", "size_t": "size_t", **WITHIN, **{f"uint{bits}": f"uint{bits}_t" for bits in (8, 16, 32, 64)}}
    return [(types[kind], name, constant(python, n) if n else 1) for name, kind, n in found]


def forms_in(text):
    """The forms of addresses, each by its number."""
    named = {first or last: int(number) for first, last, number in re.findall(
        r"\b(?:HK_)?(?:FORM_([A-Z]+)|([A-Z]+)_FORM)(?:: u8)? = (\d)", text)}
    together = re.search(r"^(FORM_\w+(?:, FORM_\w+)*) = ([\d, ]+)$", text, re.M)
    if together:
        named.update(zip((name[5:] for name in together[1].split(", ")), map(int, together[2].split(", "))))
    return named


def as_bytes(struct):
    """A bool is a byte of 0 or 1, and a char is one."""
    return [("uint8_t" if kind in ("bool", "char") else kind, name, n) for kind, name, n in struct]


def structs_alike(sources):
    """Whether each struct of the header is the crate's, that of Rust and that of Python."""
    same = {}
    for what, (c, crate, rust, python) in STRUCTS.items():
        struct = struct_in_header(sources.header, c)
        same[f"the {what}"] = as_bytes(struct) == as_bytes(struct_in(sources.crate, crate)) != []
        same[f"the {what} in Rust"] = as_bytes(struct) == as_bytes(struct_in(sources.rust, rust))
        same[f"the {what} in Python"] = as_bytes(struct) == as_bytes(struct_in_python(sources.python, python))
    return same


# ---- errnos, each as its number and its text

def errnos_in_crate(errnos):
    found = re.findall(r"/// ([^\n]*)\.\n    (E[A-Z]+) = (\d+),", errnos)
    return {name: (int(number), text) for text, name, number in found}


def errnos_in_header(header):
    texts = dict(re.findall(r'case HK_(E[A-Z]+): return "([^"]*)";', header))
    found = re.findall(r"\bHK_(E[A-Z]+) = (\d+)", header)
    return {name: (int(number), texts.get(name)) for name, number in found}


def errnos_in_rust(text):
    texts = dict(re.findall(r'\(\s*Errno::(E[A-Z]+),\s*"([^"]*)",?\s*\)', text))
    return {name: (int(number), texts.get(name)) for name, number in re.findall(r"\b(E[A-Z]+) = (\d+),", text)}


def errnos_in_python(text):
    """Those that have a number and a text, and an exception that is named for them."""
    texts = dict(re.findall(r'\bErrno\.(E[A-Z]+): "([^"]*)"', text))
    found = {name: (int(number), texts.get(name)) for name, number in re.findall(r"\b(E[A-Z]+) = (\d+)$", text, re.M)}
    classes = re.findall(r"^class (E[A-Z]+)\(Refused\):\n    errno = Errno\.(E[A-Z]+)$", text, re.M)
    return found if classes == [(name, name) for name in found] else None


# ---- what is compared

def differences(sources):
    """What stands otherwise in one place than in another."""
    header, crate = functions_in_header(sources.header), functions_in_crate(sources.crate)
    numbers = {(str(number), name) for name, (number, _) in errnos_in_crate(sources.errnos).items()}
    bad = {constant(sources.header, "HK_BAD"), constant(sources.rust, "BAD"), constant(sources.crate, "BAD")}
    bad.add(constant(sources.python_errnos, "BAD_LINE"))
    inline = {name + "_n" for name in re.findall(r"static inline uint32_t (hk_\w+)\(hk_world", sources.header)}
    same = {
        "functions of the header and the crate": header == crate != {},
        "functions of the header and Rust": header == functions_in_rust(sources.rust),
        "functions of the header and Python": header == functions_in_header(sources.python),
        "inline functions": inline == {name for name in header if name.endswith("_n")},
        **structs_alike(sources),
        "the forms": forms_in(sources.header) == forms_in(sources.crate) != {},
        "the forms in Rust": forms_in(sources.rust).items() <= forms_in(sources.header).items() and forms_in(sources.rust) != {},
        "the forms in Python": forms_in(sources.python).items() <= forms_in(sources.header).items() and forms_in(sources.python) != {},
        "errnos of the header": errnos_in_header(sources.header) == errnos_in_crate(sources.errnos) != {},
        "errnos in Rust": errnos_in_rust(sources.rust_errnos) == errnos_in_crate(sources.errnos),
        "errnos in Python": errnos_in_python(sources.python_errnos) == errnos_in_crate(sources.errnos),
        "errnos of FORMATS": set(errnos_in_formats(Pages.of_today())) == numbers,
        "the answer to a bad line": len(bad) == 1,
    }
    return [what for what, holds in same.items() if not holds]


def compare_sources(sweep):
    found = differences(Sources.of_today())
    sweep.claim(f"what stands in two places: {', '.join(found)}", not found)


# Slips of the pen, each in one place.
SLIPS = [
    ("header", "uint32_t hk_losing(hk_world *world, uint32_t address);", "functions of the header and the crate",
     "uint32_t hk_losing(hk_world *world, uint64_t address);"),
    ("header", "uint32_t hk_losing(hk_world *world, uint32_t address);", "functions of the header and Rust", ""),
    ("header", "bool has_filter, uint32_t filter, uint32_t room", "functions of the header and the crate",
     "uint32_t filter, bool has_filter, uint32_t room"),
    ("header", "hk_fetch(hk_world *world, uint8_t *out", "functions of the header and the crate",
     "hk_fetch(hk_world *world, const uint8_t *out"),
    ("header", "size_t hk_text(", "functions of the header and the crate", "uint32_t hk_text("),
    ("header", "uint8_t *out, size_t n, size_t *size);", "functions of the header and the crate",
     "uint8_t *out, size_t n, uint64_t *size);"),
    ("header", "hk_show(const uint8_t *message, size_t message_n, uint8_t *out, size_t n",
     "functions of the header and Rust", "hk_show(uint8_t *out, size_t n, const uint8_t *message, size_t message_n"),
    ("header", "static inline uint32_t hk_shut(hk", "inline functions", "static inline uint32_t hk_shutdown(hk"),
    ("header", "\tuint16_t flags;", "the route", "\tuint32_t flags;"),
    ("header", "#define HK_LINK_BYTES 32", "the route", "#define HK_LINK_BYTES 31"),
    ("header", "\tuint32_t destination;", "the request", "\tuint16_t destination;"),
    ("rust", "    pub(crate) destination: u32,\n", "the request in Rust", ""),
    ("header", "\tuint32_t metric;", "the header", "\tuint16_t metric;"),
    ("header", "\thk_route route;", "the entry", "\thk_request route;"),
    ("header", "#define HK_NAME_BYTES 9", "the interface", "#define HK_NAME_BYTES 8"),
    ("header", "\tbool routed;", "the interface's address", "\tuint32_t routed;"),
    ("header", "\tsize_t waiting;", "the socket", "\tuint32_t waiting;"),
    ("rust", "    pub(crate) waiting: usize,\n", "the socket in Rust", ""),
    ("python", '        ("waiting", ctypes.c_size_t),\n', "the socket in Python", ""),
    ("header", "HK_FORM_MASK = 2", "the forms", "HK_FORM_MASK = 3"),
    ("rust", "    pub(crate) metric: u32,\n", "the header in Rust", ""),
    ("rust", "    pub(crate) form: u8,\n", "the address in Rust", ""),
    ("rust", "LINK_BYTES: usize = 32;", "the request in Rust", "LINK_BYTES: usize = 31;"),
    ("rust", "FORM_LINK: u8 = 3", "the forms in Rust", "FORM_LINK: u8 = 2"),
    ("python", '        ("metric", ctypes.c_uint32),\n', "the header in Python", ""),
    ("python", '("at", ctypes.c_size_t)', "the address in Python", '("at", ctypes.c_uint32)'),
    ("python", "FORM_INET, FORM_MASK, FORM_LINK = 1, 2, 3", "the forms in Python", "FORM_INET, FORM_MASK, FORM_LINK = 1, 3, 2"),
    ("header", "HK_ENOSPC = 28,", "errnos of the header", "HK_ENOSPC = 29,"),
    ("header", 'case HK_ENOSPC: return "Too', "errnos of the header", 'case HK_ENOSPC: return "To'),
    ("header", "HK_BAD = 256", "the answer to a bad line", "HK_BAD = 255"),
    ("crate", "pub extern \"C\" fn hk_redirect(\n    world: &mut Handle,\n    destination: u32,",
     "functions of the header and the crate", "pub extern \"C\" fn hk_redirect(\n    world: &mut Handle,\n"),
    ("crate", "    pub drops: u8,\n", "the route", ""),
    ("crate", "    pub destination: u32,\n", "the request", ""),
    ("rust", "fn hk_losing(world: *mut World, address: u32) -> u32;", "functions of the header and Rust",
     "fn hk_losing(world: *mut World, address: u64) -> u32;"),
    ("rust", "fn hk_close(world: *mut World);", "functions of the header and Rust", ""),
    ("rust", "    pub(crate) rank: u8,\n    pub(crate) family: u8,\n", "the route in Rust",
     "    pub(crate) family: u8,\n    pub(crate) rank: u8,\n"),
    ("rust_errnos", "    EMFILE = 24,", "errnos in Rust", "    EMFILE = 23,"),
    ("python", "uint32_t hk_losing(hk_world *world, uint32_t address);", "functions of the header and Python",
     "uint32_t hk_losing(hk_world *world, uint8_t address);"),
    ("python", "void hk_close(hk_world *world);\n", "functions of the header and Python", ""),
    ("python", '("flags", ctypes.c_uint16)', "the route in Python", '("flags", ctypes.c_uint32)'),
    ("python_errnos", 'EMFILE: "Too many sockets"', "errnos in Python", 'EMFILE: "Too many"'),
    ("python_errnos", "    EMFILE = 24\n", "errnos in Python", "    EMFILE = 23\n"),
    ("python_errnos", "class ENXIO(Refused):\n    errno = Errno.ENXIO", "errnos in Python",
     "class ENXIO(Refused):\n    errno = Errno.ESRCH"),
    ("python_errnos", "BAD_LINE = 256", "the answer to a bad line", "BAD_LINE = 255"),
    ("errnos", "    ETOOMANYREFS = 59,", "errnos of FORMATS", "    ETOOMANYREFS = 60,"),
]


def notice_slips(sweep):
    """The comparison notices each of these."""
    for field, old, what, new in SLIPS:
        sources = Sources.of_today()
        text = getattr(sources, field)
        found = differences(replace(sources, **{field: text.replace(old, new)}))
        sweep.claim(f"a slip of the pen: {old} to {new}", text.count(old) == 1 and what in found)


def symbols(file, *words):
    """The names of a file's global symbols, without their versions and without those that needn't be there."""
    told = subprocess.run(["nm", "-g", "-P", *words, file], capture_output=True, text=True, check=True).stdout
    found = [line.split() for line in told.splitlines()]
    return {words[0].split("@")[0] for words in found if len(words) > 1 and words[1] not in "wv"}


def compare_symbols(sweep, file, *words):
    """The archive or the shared object has the functions of the header and nothing else, and wants of a program what every
    C program has."""
    functions = set(functions_in_header(Sources.of_today().header))
    has, wants = (symbols(file, *words, which) for which in ("--defined-only", "--undefined-only"))
    sweep.claim(f"symbols of {file.name}, but {functions ^ has}", has == functions != set())
    wants -= NO_SYMBOL
    sweep.claim(f"what {file.name} wants, but {wants - WANTED}", "malloc" in wants <= WANTED)


def compare_both(sweep):
    compare_symbols(sweep, sweep.archive)
    compare_symbols(sweep, sweep.objects() / "libhoiskend.so.0", "-D")
