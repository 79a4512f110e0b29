"""The calls of hoiskend.h, by ctypes, and the one place where a pointer is given to the library.

The shared object is the first of these that is there: that of the folder which HOISKEND_LIB names, the one beside this
file, the one that the loader knows, the one of the folder that pkg-config tells.
"""
from __future__ import annotations

import ctypes
import os
import re
import subprocess
from operator import index
from pathlib import Path
from types import SimpleNamespace
from typing import Any, Callable, Iterator, List, Optional

NAME = "libhoiskend.so.0"
VARIABLE = "HOISKEND_LIB"
LINK_BYTES = 32
NAME_BYTES = 9
LINK_ADDRESS_BYTES = 8
MOST_CONVERTED = 2304
NO_ROOM = 12

# As the header has them.
PROTOTYPES = """
uint32_t hk_open(hk_world *world);
void hk_close(hk_world *world);
uint32_t hk_attach_n(hk_world *world, const uint8_t *name, size_t name_n, uint8_t kind, uint8_t type_number,
                     const uint8_t *link, size_t link_n);
uint32_t hk_add_address_n(hk_world *world, const uint8_t *name, size_t name_n, uint32_t address, uint8_t prefix,
                          bool cloning, bool has_far, uint32_t far);
uint32_t hk_remove_address_n(hk_world *world, const uint8_t *name, size_t name_n, uint32_t address);
uint32_t hk_listen_n(hk_world *world, const uint8_t *id, size_t id_n, uint32_t pid, uint8_t protocol);
uint32_t hk_shut_n(hk_world *world, const uint8_t *id, size_t id_n);
uint32_t hk_loopback_n(hk_world *world, const uint8_t *id, size_t id_n, bool on);
uint32_t hk_write_n(hk_world *world, const uint8_t *id, size_t id_n, const uint8_t *message, size_t n);
uint32_t hk_read_n(hk_world *world, const uint8_t *id, size_t id_n);
uint32_t hk_lost_n(hk_world *world, const uint8_t *id, size_t id_n, uint64_t *lost);
uint32_t hk_packet(hk_world *world, uint32_t destination, hk_route *route);
uint32_t hk_redirect(hk_world *world, uint32_t destination, uint32_t gateway, uint32_t author);
uint32_t hk_losing(hk_world *world, uint32_t address);
uint32_t hk_add_route_n(hk_world *world, const uint8_t *id, size_t id_n, const hk_request *request);
uint32_t hk_delete_route_n(hk_world *world, const uint8_t *id, size_t id_n, const hk_request *request);
uint32_t hk_change_route_n(hk_world *world, const uint8_t *id, size_t id_n, const hk_request *request);
uint32_t hk_get_route_n(hk_world *world, const uint8_t *id, size_t id_n, const hk_request *request);
uint32_t hk_lock_route_n(hk_world *world, const uint8_t *id, size_t id_n, const hk_request *request);
uint32_t hk_dump_size(hk_world *world, bool has_filter, uint32_t filter, uint64_t *size);
uint32_t hk_dump(hk_world *world, bool has_filter, uint32_t filter, uint32_t room);
uint32_t hk_interface_of(hk_world *world, uint16_t index, hk_interface *interface);
uint32_t hk_next_address(hk_world *world, uint16_t index, size_t *place, hk_ifaddr *address);
uint32_t hk_socket_at(hk_world *world, size_t place, hk_socket *socket);
uint32_t hk_route_of(hk_world *world, uint32_t key, uint8_t rank, hk_entry *entry);
uint32_t hk_line(hk_world *world, const uint8_t *line, size_t n);
size_t hk_fetch(hk_world *world, uint8_t *out, size_t n);
size_t hk_text(hk_world *world, uint8_t *out, size_t n);
uint32_t hk_show(const uint8_t *message, size_t message_n, uint8_t *out, size_t n, size_t *size);
uint32_t hk_message_header(const uint8_t *message, size_t n, hk_header *header);
uint32_t hk_message_address(const uint8_t *message, size_t n, uint32_t bit, hk_sockaddr *address);
uint32_t hk_convert(uint32_t from, uint32_t to, const uint8_t *message, size_t message_n, uint8_t *out, size_t n,
                    size_t *size);
"""


class Handle(ctypes.Structure):
    _fields_ = [("core", ctypes.c_void_p)]


class Route(ctypes.Structure):
    _fields_ = [
        ("key", ctypes.c_uint32),
        ("gateway", ctypes.c_uint32),
        ("index", ctypes.c_uint16),
        ("flags", ctypes.c_uint16),
        ("rank", ctypes.c_uint8),
        ("family", ctypes.c_uint8),
        ("drops", ctypes.c_bool),
        ("link_n", ctypes.c_uint8),
        ("link", ctypes.c_uint8 * LINK_BYTES),
    ]


class Request(ctypes.Structure):
    _fields_ = [
        ("destination", ctypes.c_uint32),
        ("gateway", ctypes.c_uint32),
        ("flags", ctypes.c_uint32),
        ("seq", ctypes.c_uint32),
        ("inits", ctypes.c_uint32),
        ("locks", ctypes.c_uint32),
        ("mtu", ctypes.c_uint32),
        ("hopcount", ctypes.c_uint32),
        ("expire", ctypes.c_uint32),
        ("recvpipe", ctypes.c_uint32),
        ("sendpipe", ctypes.c_uint32),
        ("ssthresh", ctypes.c_uint32),
        ("rtt", ctypes.c_uint32),
        ("rttvar", ctypes.c_uint32),
        ("prefix", ctypes.c_uint8),
        ("genmask", ctypes.c_uint8),
        ("family", ctypes.c_uint8),
        ("link_n", ctypes.c_uint8),
        ("link", ctypes.c_uint8 * LINK_BYTES),
    ]


class Interface(ctypes.Structure):
    _fields_ = [
        ("index", ctypes.c_uint16),
        ("kind", ctypes.c_uint8),
        ("type_number", ctypes.c_uint8),
        ("name_n", ctypes.c_uint8),
        ("link_n", ctypes.c_uint8),
        ("name", ctypes.c_uint8 * NAME_BYTES),
        ("link", ctypes.c_uint8 * LINK_ADDRESS_BYTES),
    ]


class Ifaddr(ctypes.Structure):
    _fields_ = [
        ("address", ctypes.c_uint32),
        ("far", ctypes.c_uint32),
        ("prefix", ctypes.c_uint8),
        ("cloning", ctypes.c_bool),
        ("routed", ctypes.c_bool),
    ]


class Socket(ctypes.Structure):
    _fields_ = [
        ("lost", ctypes.c_uint64),
        ("waiting", ctypes.c_size_t),
        ("pid", ctypes.c_uint32),
        ("protocol", ctypes.c_uint8),
        ("loopback", ctypes.c_bool),
        ("id_n", ctypes.c_uint8),
        ("id", ctypes.c_uint8 * NAME_BYTES),
    ]


class Entry(ctypes.Structure):
    _fields_ = [
        ("route", Route),
        ("use_count", ctypes.c_uint32),
        ("locks", ctypes.c_uint32),
        ("mtu", ctypes.c_uint32),
        ("hopcount", ctypes.c_uint32),
        ("expire", ctypes.c_uint32),
        ("recvpipe", ctypes.c_uint32),
        ("sendpipe", ctypes.c_uint32),
        ("ssthresh", ctypes.c_uint32),
        ("rtt", ctypes.c_uint32),
        ("rttvar", ctypes.c_uint32),
        ("pksent", ctypes.c_uint32),
        ("genmask", ctypes.c_uint8),
    ]


class Header(ctypes.Structure):
    _fields_ = [
        ("flags", ctypes.c_uint32),
        ("addrs", ctypes.c_uint32),
        ("pid", ctypes.c_uint32),
        ("seq", ctypes.c_uint32),
        ("error", ctypes.c_uint32),
        ("use_count", ctypes.c_uint32),
        ("inits", ctypes.c_uint32),
        ("locks", ctypes.c_uint32),
        ("mtu", ctypes.c_uint32),
        ("hopcount", ctypes.c_uint32),
        ("expire", ctypes.c_uint32),
        ("recvpipe", ctypes.c_uint32),
        ("sendpipe", ctypes.c_uint32),
        ("ssthresh", ctypes.c_uint32),
        ("rtt", ctypes.c_uint32),
        ("rttvar", ctypes.c_uint32),
        ("pksent", ctypes.c_uint32),
        ("metric", ctypes.c_uint32),
        ("index", ctypes.c_uint16),
        ("kind", ctypes.c_uint8),
    ]


class Sockaddr(ctypes.Structure):
    _fields_ = [
        ("at", ctypes.c_size_t),
        ("inet", ctypes.c_uint32),
        ("n", ctypes.c_uint8),
        ("form", ctypes.c_uint8),
        ("bits", ctypes.c_uint8),
        ("family", ctypes.c_uint8),
    ]


FORM_INET, FORM_MASK, FORM_LINK = 1, 2, 3

RESULTS = {"void": None, "uint32_t": ctypes.c_uint32, "size_t": ctypes.c_size_t}
PARAMETERS = {
    "bool": ctypes.c_bool,
    "uint8_t": ctypes.c_uint8,
    "uint16_t": ctypes.c_uint16,
    "uint32_t": ctypes.c_uint32,
    "size_t": ctypes.c_size_t,
    "hk_world *": ctypes.POINTER(Handle),
    "hk_route *": ctypes.POINTER(Route),
    "const hk_request *": ctypes.POINTER(Request),
    "hk_interface *": ctypes.POINTER(Interface),
    "hk_ifaddr *": ctypes.POINTER(Ifaddr),
    "hk_socket *": ctypes.POINTER(Socket),
    "hk_entry *": ctypes.POINTER(Entry),
    "hk_header *": ctypes.POINTER(Header),
    "hk_sockaddr *": ctypes.POINTER(Sockaddr),
    "const uint8_t *": ctypes.c_char_p,
    "uint8_t *": ctypes.c_char_p,
    "uint64_t *": ctypes.POINTER(ctypes.c_uint64),
    "size_t *": ctypes.POINTER(ctypes.c_size_t),
}
# The most that a number may be, which ctypes would cut.
MOST = {"uint8_t": (1 << 8) - 1, "uint16_t": (1 << 16) - 1, "uint32_t": (1 << 32) - 1}


def by_pkg_config() -> str:
    """The folder that pkg-config tells, or none."""
    program = os.environ.get("PKG_CONFIG", "pkg-config")
    try:
        told = subprocess.run([program, "--variable=libdir", "hoiskend"], capture_output=True, text=True, check=True)
    except (OSError, subprocess.CalledProcessError):
        return ""
    return told.stdout.strip()


def places() -> Iterator[str]:
    """Where the shared object may be, the first that counts first."""
    if VARIABLE in os.environ:
        yield str(Path(os.environ[VARIABLE], NAME))
        return
    beside = Path(__file__).with_name(NAME)
    if beside.exists():
        yield str(beside)
    yield NAME
    folder = by_pkg_config()
    if folder:
        yield str(Path(folder, NAME))


def loaded() -> ctypes.CDLL:
    why = []
    for place in places():
        try:
            return ctypes.CDLL(place)
        except OSError as error:
            why.append(str(error))
    raise ImportError(f"there is no {NAME}: {'; '.join(why)}. {VARIABLE} names its folder, as ./library lays it")


def checked(call: Any, most: List[Optional[int]]) -> Callable[..., int]:
    """The call, which takes no number that is more than its type has."""

    def make(*given: Any) -> int:
        for value, limit in zip(given, most):
            if limit is not None and not 0 <= index(value) <= limit:
                raise OverflowError(f"{value} isn't from 0 to {limit}")
        answer: int = call(*given)
        return answer

    return make


def calls_of(library: ctypes.CDLL) -> SimpleNamespace:
    """The calls by their names."""
    made = {}
    for result, name, given in re.findall(r"(\w+) (hk_\w+)\(([^)]*)\);", PROTOTYPES):
        types = [re.sub(r"\w+$", "", each.strip()).strip() for each in given.split(",")]
        call = getattr(library, name)
        call.restype, call.argtypes = RESULTS[result], [PARAMETERS[kind] for kind in types]
        made[name] = checked(call, [MOST.get(kind) for kind in types])
    return SimpleNamespace(**made)


calls = calls_of(loaded())


def given(call: Callable[..., int], handle: Handle) -> bytes:
    """All the bytes of hk_fetch or hk_text, which first tell how many there are."""
    n = call(handle, ctypes.create_string_buffer(1), 0)
    out = ctypes.create_string_buffer(n + 1)
    call(handle, out, n)
    return out.raw[:n]


def show(message: bytes) -> tuple[int, bytes]:
    """What hk_show answers, and the text."""
    size, out = ctypes.c_size_t(), ctypes.create_string_buffer(1)
    code = calls.hk_show(message, len(message), out, 0, size)
    if code == NO_ROOM:
        out = ctypes.create_string_buffer(size.value)
        code = calls.hk_show(message, len(message), out, size.value, size)
    return code, out.raw[: size.value]


def convert(source: int, to: int, message: bytes) -> tuple[int, bytes]:
    """What hk_convert answers, and the message that it gives."""
    size, out = ctypes.c_size_t(), ctypes.create_string_buffer(MOST_CONVERTED)
    code = calls.hk_convert(source, to, message, len(message), out, MOST_CONVERTED, size)
    return code, out.raw[: size.value]


def header(message: bytes) -> tuple[int, Header]:
    """What hk_message_header answers, and the fields."""
    found = Header()
    return calls.hk_message_header(message, len(message), found), found


def address(message: bytes, bit: int) -> tuple[int, Sockaddr]:
    """What hk_message_address answers, and the address."""
    found = Sockaddr()
    return calls.hk_message_address(message, len(message), bit, found), found
