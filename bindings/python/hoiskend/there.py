"""What is there: interfaces, their addresses, open sockets, and routes as the table has them."""
from __future__ import annotations

import ctypes
from dataclasses import dataclass
from enum import IntEnum
from ipaddress import IPv4Address
from typing import TYPE_CHECKING, Iterator, Optional

from . import _library
from ._library import calls
from .errors import Errno, check
from .messages import Metrics
from .routes import Route, bits_of

if TYPE_CHECKING:
    from .world import Socket


class Kind(IntEnum):
    """The kinds of interfaces."""

    BROADCAST = 0
    LOOPBACK = 1
    POINTOPOINT = 2


@dataclass(frozen=True)
class Interface:
    """An interface."""

    # Its number, from 1.
    index: int
    # 1 to 8 bytes.
    name: bytes
    kind: Kind
    # That of <net/if_types.h>.
    type_number: int
    # Its link-layer address, of at most 8 bytes.
    link: bytes


@dataclass(frozen=True)
class InterfaceAddress:
    """An address of an interface."""

    address: IPv4Address
    # The broadcast address, or of Kind.LOOPBACK the address itself, or of Kind.POINTOPOINT the other end.
    far: IPv4Address
    # The bits of its mask.
    prefix: int
    # Whether the route that came with it clones.
    cloning: bool
    # Whether that route was added.
    routed: bool


@dataclass(frozen=True)
class SocketState:
    """An open socket, and what waits for it."""

    socket: Socket
    # The process that opened it.
    pid: int
    # The family that it hears, or 0 for all.
    protocol: int
    # Whether it hears the replies to its own writes.
    loopback: bool
    # How many bytes the messages have that wait for it.
    waiting: int
    # How many messages it has lost since it was opened.
    lost: int

    @classmethod
    def of(cls, found: _library.Socket, socket: Socket) -> SocketState:
        """That which the library has written of this socket."""
        return cls(socket, found.pid, found.protocol, found.loopback, found.waiting, found.lost)


@dataclass(frozen=True)
class Entry:
    """A route as the table has it."""

    # As World.packet gives it.
    route: Route
    # How many packets took it; it wraps.
    use: int
    metrics: Metrics
    # The bits of the mask of its clones, or None where it has none.
    genmask: Optional[int]

    @classmethod
    def of(cls, found: _library.Entry) -> Entry:
        """That which the library has written."""
        metrics = Metrics(*(getattr(found, name) for name in Metrics._fields))
        return cls(Route.of(found.route), found.use_count, metrics, bits_of(found.genmask))


def is_told(code: int, end: Errno) -> bool:
    """Whether the library told one more, by its answer, and not that it has come to the end. Raises all else."""
    if code != end:
        check(code)
    return code != end


def interfaces_in(handle: _library.Handle) -> Iterator[Interface]:
    """The interfaces of a world, in the order of their numbers."""
    found, number = _library.Interface(), 1
    while is_told(calls.hk_interface_of(handle, number, found), Errno.ENXIO):
        name, link = bytes(found.name)[: found.name_n], bytes(found.link)[: found.link_n]
        yield Interface(found.index, name, Kind(found.kind), found.type_number, link)
        number += 1


def addresses_in(handle: _library.Handle, number: int) -> Iterator[InterfaceAddress]:
    """The addresses of the interface with this number, in the order in which they were added."""
    found, place = _library.Ifaddr(), ctypes.c_size_t()
    while is_told(calls.hk_next_address(handle, number, place, found), Errno.EADDRNOTAVAIL):
        address, far = IPv4Address(found.address), IPv4Address(found.far)
        yield InterfaceAddress(address, far, found.prefix, found.cloning, found.routed)


def sockets_in(handle: _library.Handle) -> Iterator[tuple[bytes, _library.Socket]]:
    """The open sockets by their ids, in the order in which they were opened; what is written of one stays until the next."""
    found, place = _library.Socket(), 0
    while is_told(calls.hk_socket_at(handle, place, found), Errno.EBADF):
        yield bytes(found.id)[: found.id_n], found
        place += 1
