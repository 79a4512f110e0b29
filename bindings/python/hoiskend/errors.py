"""Why a command is refused, or a message is none."""
from __future__ import annotations

from enum import IntEnum


class Errno(IntEnum):
    """The errnos of 4.4BSD by which a world refuses, whatever the host's are.

    >>> Errno.ENETUNREACH.value, Errno(51).text
    (51, "The gateway can't be reached")
    """

    ESRCH = 3
    ENXIO = 6
    EBADF = 9
    ENOMEM = 12
    EEXIST = 17
    EINVAL = 22
    EMFILE = 24
    ENOSPC = 28
    EMSGSIZE = 40
    EPROTONOSUPPORT = 43
    EOPNOTSUPP = 45
    EADDRINUSE = 48
    EADDRNOTAVAIL = 49
    ENETUNREACH = 51
    ENOBUFS = 55
    ETOOMANYREFS = 59
    EHOSTUNREACH = 65

    @property
    def text(self) -> str:
        return TEXTS[self]


TEXTS = {
    Errno.ESRCH: "No such route",
    Errno.ENXIO: "No such interface",
    Errno.EBADF: "No such socket",
    Errno.ENOMEM: "The buffer is too small",
    Errno.EEXIST: "It is there already",
    Errno.EINVAL: "A malformed request",
    Errno.EMFILE: "Too many sockets",
    Errno.ENOSPC: "Too many interfaces or addresses",
    Errno.EMSGSIZE: "A message that is too long",
    Errno.EPROTONOSUPPORT: "A message of another version",
    Errno.EOPNOTSUPP: "A message of another type",
    Errno.EADDRINUSE: "The address is in use",
    Errno.EADDRNOTAVAIL: "No such address on the interface",
    Errno.ENETUNREACH: "The gateway can't be reached",
    Errno.ENOBUFS: "No memory",
    Errno.ETOOMANYREFS: "No route with that mask",
    Errno.EHOSTUNREACH: "No route to the host",
}


class Error(Exception):
    """What this package raises beside ValueError, TypeError and OverflowError."""


class Refused(Error):
    """A command that is refused. Each errno has a class of its own below this one, named for it."""

    errno: Errno

    def __str__(self) -> str:
        return f"{self.errno.name} ({self.errno.value}): {self.errno.text}"


class ESRCH(Refused):
    errno = Errno.ESRCH


class ENXIO(Refused):
    errno = Errno.ENXIO


class EBADF(Refused):
    errno = Errno.EBADF


class ENOMEM(Refused):
    errno = Errno.ENOMEM


class EEXIST(Refused):
    errno = Errno.EEXIST


class EINVAL(Refused):
    errno = Errno.EINVAL


class EMFILE(Refused):
    errno = Errno.EMFILE


class ENOSPC(Refused):
    errno = Errno.ENOSPC


class EMSGSIZE(Refused):
    errno = Errno.EMSGSIZE


class EPROTONOSUPPORT(Refused):
    errno = Errno.EPROTONOSUPPORT


class EOPNOTSUPP(Refused):
    errno = Errno.EOPNOTSUPP


class EADDRINUSE(Refused):
    errno = Errno.EADDRINUSE


class EADDRNOTAVAIL(Refused):
    errno = Errno.EADDRNOTAVAIL


class ENETUNREACH(Refused):
    errno = Errno.ENETUNREACH


class ENOBUFS(Refused):
    errno = Errno.ENOBUFS


class ETOOMANYREFS(Refused):
    errno = Errno.ETOOMANYREFS


class EHOSTUNREACH(Refused):
    errno = Errno.EHOSTUNREACH


class BadLine(Error):
    """A line that the grammar doesn't have."""


class Fault(IntEnum):
    """Why bytes are no message, or a message has no counterpart in another layout: the first of these that holds."""

    KIND = 257
    LENGTH = 258
    VERSION = 259
    OVERRUN = 260
    WIDE = 261


class MessageError(Error, ValueError):
    """Bytes that are no message, or a message that has no counterpart in another layout."""

    def __init__(self, fault: Fault) -> None:
        super().__init__(fault)
        self.fault = fault

    def __str__(self) -> str:
        return {
            Fault.KIND: "the type has no counterpart",
            Fault.LENGTH: "the length is wrong",
            Fault.VERSION: "the version is another",
            Fault.OVERRUN: "an address passes the end",
            Fault.WIDE: "a number or an address is too wide",
        }[self.fault]


BAD_LINE = 256
CLASSES = {refused.errno: refused for refused in Refused.__subclasses__()}


def check(code: int) -> None:
    """Raises what a call's answer says, if it isn't done."""
    if code == 0:
        return
    if code == BAD_LINE:
        raise BadLine("a line that is no command")
    if code > BAD_LINE:
        raise MessageError(Fault(code))
    raise CLASSES[Errno(code)]()
