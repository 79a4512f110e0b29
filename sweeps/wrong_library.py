"""The library made wrong, and the shared object, for the trial of the sweeps over them."""
import ctypes
import os
import shutil
import subprocess
import tempfile
from pathlib import Path

from calls import (
    BAD, INVALID, LEFT_OUT, NO_MEMORY, OK, Entry, Header, Interface, InterfaceAddress, Library, Sockaddr, SocketTold,
)

# What the calls that tell what is in a world write to.
TOLD = {
    "hk_interface_of": Interface, "hk_next_address": InterfaceAddress, "hk_socket_at": SocketTold, "hk_route_of": Entry,
}

# What a library that starves says that there is no memory for, by what such a call is given last or first.
STARVED = {("hk_redirect", -1, 0), ("hk_packet", 0, 0), ("hk_write_n", -1, 4096)}

TOP = Path(__file__).resolve().parents[1]
SOURCE, NAME = Path(__file__).with_name("wrong_object.c"), "libhoiskend.so.0"
# Of the wrong shared objects, the call that another stands in the place of: wrong_object.c has these. `talks` has a symbol
# that is no call, and `nameless` no name for loaders.
WRONG_CALLS = {"mute": "hk_fetch", "nods": "hk_write_n", "mumbles": "hk_show"}
WRONG_OBJECTS = {*WRONG_CALLS, "talks", "nameless"}


def wrong_object(archive, folder, wrong):
    """A folder with the shared object of this archive, made wrong."""
    room, compiler = Path(tempfile.mkdtemp(dir=folder)), os.environ.get("CC", "cc")
    copy, own, made = room / "libhoiskend.a", room / "wrong.o", room / NAME
    shutil.copyfile(archive, copy)
    commands = [[compiler, "-c", "-fPIC", f"-D{wrong.upper()}", "-o", own, SOURCE], ["ar", "rs", copy, own]]
    if wrong in WRONG_CALLS:
        call = WRONG_CALLS[wrong]
        commands.insert(0, ["objcopy", "--redefine-sym", f"{call}=right_{call}", copy])
    whole = ["-Wl,--whole-archive", copy, "-Wl,--no-whole-archive"]
    named = [] if wrong == "nameless" else [f"-Wl,-soname,{NAME}"]
    alone = wrong in ("talks", "nameless")
    commands.append([compiler, "-shared", "-o", made, *named, *whole] if alone else [TOP / "tools" / "shared", copy, made])
    for command in commands:
        subprocess.run([*map(str, command)], check=True, capture_output=True)
    return room


class WrongLibrary(Library):
    """`wrong` names what it does:

    long-names    takes the first 8 bytes of a longer name
    shares        has one world for all
    reopens       opens an open world anew
    scribbles     writes to the room of hk_fetch, hk_text, hk_show and hk_convert also where it is too short, and to that of
                  a message's part or of what is in a world where there is none
    forgets       empties the last answer where a call is refused for its parameters
    welcomes      answers a closed world 0, and so a text or a message that doesn't fit, and an address that isn't there
    cuts          shows, converts or takes apart a message without its last byte
    mixes         has a message's gateway for its destination, and the other way round
    turns         has OpenBSD's layout for FreeBSD's, and the other way round
    excuses       answers each message that has no counterpart, or is none, with the first fault
    skips         passes over the first interface and the first socket
    widens        tells the route of a mask that is a bit shorter
    starves       answers now and then that there is no memory: to an author 0.0.0.0, to a packet for it, and to a message of
                  4,096 bytes
    """

    wrong, first = None, None

    def make(self, name, handle, *given):
        is_closed = handle.core is None
        if self.wrong == "starves" and any((name, at, given[at]) in STARVED for at in (0, -1) if given):
            return NO_MEMORY
        if self.wrong == "long-names" and name.endswith("_n"):
            given = given[0], min(given[1], 8), *given[2:]
        if self.wrong == "shares":
            handle = self.first = self.first or handle
            if name == "hk_open" and handle.core:
                return OK
        if self.wrong == "reopens" and name == "hk_open":
            handle.core = None
        if self.wrong == "scribbles" and name in ("hk_fetch", "hk_text"):
            ctypes.memset(given[0], 0, given[1])
        if self.wrong == "scribbles" and name in TOLD:
            ctypes.memset(given[-1], 0, ctypes.sizeof(TOLD[name]))
        if self.wrong == "skips" and name in ("hk_interface_of", "hk_socket_at"):
            given = given[0] + 1, given[1]
        if self.wrong == "widens" and name == "hk_route_of":
            given = given[0], max(given[1] - 1, 0), given[2]
        answer = super().make(name, handle, *given)
        if self.wrong == "forgets" and answer == INVALID and not is_closed:
            super().make("hk_line", handle, handle.core, 0)
        return OK if self.wrong == "welcomes" and is_closed else answer

    def show(self, message, message_n, out, n, size):
        if self.wrong == "scribbles":
            ctypes.memset(out, 0, n)
        if self.wrong == "starves" and message_n == 4096:
            return NO_MEMORY
        cut = self.wrong == "cuts" and message_n > 0
        code = super().show(message, message_n - cut, out, n, size)
        return OK if self.wrong == "welcomes" and code == LEFT_OUT else code

    def convert(self, source, to, message, message_n, out, n, size):
        if self.wrong == "scribbles":
            ctypes.memset(out, 0, n)
        if self.wrong == "turns":
            source, to = ({1: 2, 2: 1}.get(system, system) for system in (source, to))
        cut = self.wrong == "cuts" and message_n > 0
        code = super().convert(source, to, message, message_n - cut, out, n, size)
        if self.wrong == "excuses" and code > BAD:
            return BAD + 1
        return OK if self.wrong == "welcomes" and code == LEFT_OUT else code

    def header(self, message, n, header):
        if self.wrong == "scribbles":
            ctypes.memset(header, 0, ctypes.sizeof(Header))
        code = super().header(message, n - (self.wrong == "cuts" and n > 0), header)
        return BAD + 1 if self.wrong == "excuses" and code > BAD else code

    def address(self, message, n, bit, address):
        if self.wrong == "scribbles":
            ctypes.memset(address, 0, ctypes.sizeof(Sockaddr))
        if self.wrong == "mixes":
            bit = {1: 2, 2: 1}.get(bit, bit)
        code = super().address(message, n, bit, address)
        return OK if self.wrong == "welcomes" and code > BAD else code
