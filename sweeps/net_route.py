"""The numbers of messages by name, and where the fields of a header begin: in `route_msgs`, the header, and the packages for
Rust and Python. All have to say the same."""
import re
from dataclasses import dataclass, replace
from pathlib import Path

from pages import NEVER_MADE, NUMBERS

TOP = Path(__file__).resolve().parents[1]
PATHS = {
    "header": "include/hoiskend.h", "rust": "bindings/rust/src/net_route.rs",
    "python": "bindings/python/hoiskend/net_route.py", "writing": "crates/route_msgs/src/writing.rt",
    "limits": "crates/listeners/src/limits.rt", "sockaddrs": "crates/sock_addrs/src/writing.rt",
    "families": "crates/sock_addrs/src/families.rt", "links": "crates/sock_addrs/src/link.rt",
    "asked": "crates/route_core/src/request.rt", "written": "crates/route_core/src/written.rt",
}
PREFIXES = "RTM|RTA|RTF|RTV|IFA"
NAMED = rf"(?:{PREFIXES})_(?!AT_|HEADER)[A-Z0-9]+"


@dataclass(frozen=True)
class Sources:
    """The texts that are compared."""

    header: str
    rust: str
    python: str
    writing: str
    limits: str
    sockaddrs: str
    families: str
    links: str
    asked: str
    written: str
    numbers: str

    @staticmethod
    def of_today():
        numbers = "".join(path.read_text() for path in NUMBERS)
        return Sources(**{name: (TOP / path).read_text() for name, path in PATHS.items()}, numbers=numbers)


def by_name(pairs):
    return {name: int(number, 0) for name, number in pairs}


# ---- numbers by name

def numbers_in_code(sources):
    found = by_name(re.findall(rf"pub const ({NAMED}): u\d+ = (\w+);", sources.numbers))
    return {**found, **NEVER_MADE}


def numbers_in_header(sources):
    return by_name(re.findall(rf"\bHK_({NAMED}) = (\w+)", sources.header))


def numbers_in_rust(sources):
    return by_name(re.findall(rf"pub const ({NAMED}): u\d+ = (\w+);", sources.rust))


def numbers_in_python(sources):
    found = by_name(re.findall(rf"^({NAMED}) = (\w+)$", sources.python, re.M))
    for kind, body in re.findall(r"^class (\w+)\(.*\n((?:    .*\n|\n)+)", sources.python, re.M):
        members = by_name(re.findall(r"^    (\w+) = (\w+)$", body, re.M))
        found.update((f"{kind}_{name}", number) for name, number in members.items())
    return found


# ---- fields of the two headers, each as where it begins and how many bytes it has, by its name

WIDTHS = {"u8": 1, "u16": 2, "u32": 4}
OF_CODE = {"use_count": "use", "size": "length", "RTM_VERSION": "version"}


def fields_in_code(sources):
    """Those of `rt_msghdr` and of `ifa_msghdr`, where they are written."""
    found = []
    for text in parts(sources.writing):
        calls = re.findall(r"patch_(u\d+)\((?:&mut )?head, (\d+), (?:\w+\.)*(\w+)\);", text)
        found.append({OF_CODE.get(name, name): (int(at), WIDTHS[kind]) for kind, at, name in calls})
    return found


def parts(text):
    """The functions that write the one header, and that which writes the other, which begins where a second length does."""
    first, _, second = text.rpartition("patch_u16(&mut head, 0, size);")
    return [first, "patch_u16(&mut head, 0, size);" + second]


def fields_in_header(sources):
    widths = r"\b{} = (\d+), +/\* (\d)"
    found = [re.findall(widths.format(rf"{begin}_AT_(\w+)"), sources.header) for begin in ("HK", "HK_IFA")]
    front, own = ({name.lower(): (int(at), int(width)) for name, at, width in fields} for fields in found)
    return [front, {**{name: front[name] for name in ("length", "version", "kind")}, **own}]


def fields_in_python(sources):
    tables = re.findall(r"^(?:IFA_)?AT = \{\n(.*?)\}", sources.python, re.M | re.S)
    return [{name: (int(at), int(n)) for name, at, n in re.findall(r'"(\w+)": \((\d+), (\d)\)', table)} for table in tables]


def offsets(fields):
    """Where fields begin, and where the header ends."""
    return {**{name: at for name, (at, _) in fields.items()}, "end": max(at + width for at, width in fields.values())}


def offsets_in_rust(sources):
    modules = re.findall(r"pub mod \w+ \{(.*?)\n\}", sources.rust, re.S)
    return [{name.lower(): int(at) for name, at in re.findall(r"pub const (\w+): usize = (\d+);", body)} for body in modules]


def ends(text, begin="HK_"):
    return [int(re.search(rf"\b{begin}{name}HEADER_BYTES = (\d+)", text)[1]) for name in ("", "IFA_")]


# ---- sizes

SIZES = ("INET_BYTES", "MASK_BYTES", "LINK_BYTES", "QUEUE_BYTES", "MESSAGE_BYTES", "WRITE_BYTES")


def size(text, name, begin=""):
    return int(re.search(rf"\b{begin}{name}(?:: usize)?(?: =)? (\d+)", text)[1])


def sizes_agree(sources):
    """Those of the header, of Rust and of Python are those of the crates."""
    put, most_link = re.search(r"put\(&\[4 \+ ([^]]*)\], out", sources.sockaddrs), re.search(r"bytes: \[u8; (\d+)\]", sources.links)
    crates = {
        "INET_BYTES": int(re.search(r"put\(&\[(\d+), 2, 0, 0,", sources.sockaddrs)[1]),
        "MASK_BYTES": len(put[1].split(",")), "LINK_BYTES": int(most_link[1]),
        "QUEUE_BYTES": size(sources.limits, "MOST_QUEUED"), "MESSAGE_BYTES": size(sources.asked, "MOST_BYTES"),
        "WRITE_BYTES": size(sources.written, "MOST_WRITTEN"),
    }
    texts = (sources.header, "HK_"), (sources.rust, ""), (sources.python, "")
    return all({name: size(text, name, begin) for name in SIZES} == crates for text, begin in texts)


def families_agree(sources):
    in_rust = r"pub const (AF_\w+): u8 = (\d+);"
    crate, rust = (dict(re.findall(in_rust, text)) for text in (sources.families, sources.rust))
    header = dict(re.findall(r"\bHK_(AF_\w+) = (\d+)", sources.header))
    python = re.search(r"^AF_INET, AF_LINK = (\d+), (\d+)$", sources.python, re.M).groups()
    return crate == header == rust == dict(zip(("AF_INET", "AF_LINK"), python)) != {}


def differences(sources):
    """What stands otherwise in one place than in another."""
    numbers, fields = numbers_in_code(sources), fields_in_code(sources)
    rust = [{**offsets(each)} for each in fields]
    for name in ("length", "version", "kind"):
        del rust[1][name]
    same = {
        "numbers of the header": numbers_in_header(sources) == numbers != {},
        "numbers in Rust": numbers_in_rust(sources) == numbers,
        "numbers in Python": numbers_in_python(sources) == numbers,
        "fields of the header": fields_in_header(sources) == fields and all(fields),
        "fields in Python": fields_in_python(sources) == fields,
        "offsets in Rust": offsets_in_rust(sources) == rust,
        "ends": ends(sources.header) == ends(sources.python, "") == [offsets(each)["end"] for each in fields],
        "sizes": sizes_agree(sources),
        "families": families_agree(sources),
    }
    return [what for what, holds in same.items() if not holds]


def compare_numbers(sweep):
    found = differences(Sources.of_today())
    sweep.claim(f"numbers that stand in several places: {', '.join(found)}", not found)


# Slips of the pen, each in one place.
SLIPS = [
    ("header", "HK_RTM_LOCK = 8,", "HK_RTM_LOCK = 9,", "numbers of the header"),
    ("header", "\tHK_RTF_BLACKHOLE = 0x1000,\n", "", "numbers of the header"),
    ("header", "HK_IFA_ROUTE = 0x1", "HK_IFA_ROUTE = 0x2", "numbers of the header"),
    ("header", "HK_AT_PID = 16,", "HK_AT_PID = 20,", "fields of the header"),
    ("header", "HK_AT_INDEX = 4,     /* 2 */", "HK_AT_INDEX = 4,     /* 4 */", "fields of the header"),
    ("header", "HK_IFA_AT_INDEX = 12,", "HK_IFA_AT_INDEX = 14,", "fields of the header"),
    ("header", "HK_HEADER_BYTES = 76", "HK_HEADER_BYTES = 72", "ends"),
    ("header", "HK_QUEUE_BYTES = 8192", "HK_QUEUE_BYTES = 8191", "sizes"),
    ("written", "MOST_WRITTEN: usize = 8246", "MOST_WRITTEN: usize = 8247", "sizes"),
    ("header", "HK_AF_LINK = 18", "HK_AF_LINK = 17", "families"),
    ("rust", "pub const RTV_MTU: u32 = 0x1;", "pub const RTV_MTU: u32 = 0x2;", "numbers in Rust"),
    ("rust", "pub const ERRNO: usize = 24;", "pub const ERRNO: usize = 28;", "offsets in Rust"),
    ("rust", "pub const INET_BYTES: usize = 16;", "pub const INET_BYTES: usize = 8;", "sizes"),
    ("rust", "pub const LINK_BYTES: usize = 32;", "pub const LINK_BYTES: usize = 31;", "sizes"),
    ("rust", "pub const AF_LINK: u8 = 18;", "pub const AF_LINK: u8 = 17;", "families"),
    ("rust", "pub const AF_INET: u8 = 2;\n", "", "families"),
    ("python", "    DELADDR = 13\n", "", "numbers in Python"),
    ("python", "    BRD = 0x80\n", "    BRD = 0x100\n", "numbers in Python"),
    ("python", '    "metric": (16, 4),\n', '    "metric": (16, 2),\n', "fields in Python"),
    ("python", '    "rttvar": (68, 4),\n', "", "fields in Python"),
    ("writing", "head, 28, header.use_count);", "head, 30, header.use_count);", "fields of the header"),
    ("numbers", "pub const RTA_IFA: u32 = 0x20;", "pub const RTA_IFA: u32 = 0x21;", "numbers in Rust"),
]


def notice_slips(sweep):
    """The comparison notices each of these."""
    for field, old, new, what in SLIPS:
        sources = Sources.of_today()
        text = getattr(sources, field)
        found = differences(replace(sources, **{field: text.replace(old, new)}))
        sweep.claim(f"a slip of the pen: {new or old}", text.count(old) == 1 and what in found)
