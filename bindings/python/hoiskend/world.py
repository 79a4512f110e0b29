"""Worlds, and what they are told."""
from __future__ import annotations

import ctypes
import threading
from ipaddress import IPv4Interface
from types import TracebackType
from typing import Any, Callable, Dict, List, NamedTuple, Optional, Type, Union

from . import _library
from ._library import calls
from .errors import EBADF, EINVAL, ENOMEM, EPROTONOSUPPORT, Errno, Fault, MessageError, check
from .messages import Bytes, Message, System, convert, messages_in
from .routes import Destination, Gateway, InetLike, Route, key_and_rank, number_of, request_of
from .there import Entry, Interface, InterfaceAddress, Kind, SocketState, addresses_in, interfaces_in, sockets_in

MOST_ROOM = (1 << 32) - 1


class Dump(NamedTuple):
    """What a dump gives: an RTM.GET for each route that fits, in the order of the table, and whether they all fit."""

    messages: List[Message]
    is_whole: bool


def name_of(name: Union[str, bytes]) -> bytes:
    return name.encode() if isinstance(name, str) else bytes(memoryview(name))


def message_of(message: Union[Message, Bytes]) -> bytes:
    return message.data if isinstance(message, Message) else bytes(memoryview(message))


class World:
    """A world of interfaces, addresses, routes and routing sockets, which begins empty and shares nothing with others.

    Each call does one command, or raises the class of the errno that refuses it and has changed nothing; ENOBUFS says
    that there was no memory. hoiskend.h has each call's errnos in their order. A name or an id is of 1 to 8 bytes, which
    a str has as UTF-8; each call on a world that was closed raises EINVAL. Threads may share a world: it takes one call
    after another.

    >>> with World() as world:
    ...     world.attach("le0", Kind.BROADCAST, 6, bytes.fromhex("080020010203"))
    ...     world.add_address("le0", "10.0.0.1/8", cloning=True)
    ...     route = world.packet("10.9.9.9")
    >>> route.network, route.gateway, route.index
    (IPv4Network('10.9.9.9/32'), IPv4Address('10.0.0.1'), 1)
    """

    def __init__(self) -> None:
        self._handle, self._lock, self._free = _library.Handle(), threading.Lock(), calls.hk_close
        self._do(calls.hk_open)

    def _do(self, call: Callable[..., int], *given: Any) -> None:
        with self._lock:
            check(call(self._handle, *given))

    def close(self) -> None:
        """Frees all that the world has. A closed one stays closed."""
        with self._lock:
            calls.hk_close(self._handle)

    def __enter__(self) -> World:
        return self

    def __exit__(
        self, kind: Optional[Type[BaseException]], value: Optional[BaseException], trace: Optional[TracebackType]
    ) -> None:
        self.close()

    def __del__(self) -> None:
        self._free(self._handle)

    def attach(self, name: Union[str, bytes], kind: Kind, type_number: int = 6, link: Bytes = b"") -> None:
        """Attaches an interface with this number of <net/if_types.h> and link-layer address, of at most 8 bytes.

        Raises EEXIST, ENOSPC or ENOBUFS.
        """
        own, address = name_of(name), bytes(memoryview(link))
        self._do(calls.hk_attach_n, own, len(own), kind, type_number, address, len(address))

    def add_address(
        self,
        name: Union[str, bytes],
        address: Union[str, IPv4Interface],
        *,
        cloning: bool = False,
        far: Optional[InetLike] = None,
    ) -> None:
        """Gives an interface an address with a mask, as `10.0.0.1/8`, and adds its route, which clones where `cloning`.
        `far` is the other end, of Kind.POINTOPOINT alone. Where that route is there already (EEXIST) the address stays
        without it.

        Raises ENXIO, EINVAL, EADDRINUSE, ENOSPC, ENOBUFS or EEXIST.
        """
        own, whole, end = name_of(name), IPv4Interface(address), 0 if far is None else number_of(far)
        given = int(whole.ip), whole.network.prefixlen, cloning, far is not None, end
        self._do(calls.hk_add_address_n, own, len(own), *given)

    def remove_address(self, name: Union[str, bytes], address: InetLike) -> None:
        """Removes an address, and its route. Raises ENXIO or EADDRNOTAVAIL."""
        own = name_of(name)
        self._do(calls.hk_remove_address_n, own, len(own), number_of(address))

    def listen(self, id: Union[str, bytes], pid: int, protocol: int = 0) -> Socket:
        """Opens a routing socket of this process, which hears the messages of this family alone (net_route.AF_INET), or
        where it is 0 of all. Raises EEXIST, EMFILE or ENOBUFS."""
        own = name_of(id)
        self._do(calls.hk_listen_n, own, len(own), pid, protocol)
        return Socket(self, own)

    def packet(self, destination: InetLike) -> Route:
        """The route that a packet takes, with its use counted. Where a clone's place is taken it is the route that clones,
        and the sockets hear RTM.MISS.

        Raises EHOSTUNREACH where there is none, ENOBUFS, and of a route that refuses packets ENETUNREACH or EHOSTUNREACH.
        """
        found = _library.Route()
        self._do(calls.hk_packet, number_of(destination), found)
        return Route.of(found)

    def redirect(self, destination: InetLike, gateway: InetLike, author: InetLike) -> None:
        """Follows an ICMP redirect that `author` sent. Raises ENETUNREACH, EINVAL, EHOSTUNREACH, EEXIST or ENOBUFS."""
        self._do(calls.hk_redirect, number_of(destination), number_of(gateway), number_of(author))

    def losing(self, address: InetLike) -> None:
        """Gives up the route of an address, as TCP does when nothing comes back; it is removed where it has RTF.DYNAMIC.
        Raises EHOSTUNREACH."""
        self._do(calls.hk_losing, number_of(address))

    def dump_size(self, flags: Optional[int] = None) -> int:
        """How many bytes to ask for a dump of all routes, or of those with one of these flags."""
        size = ctypes.c_uint64()
        self._do(calls.hk_dump_size, flags is not None, flags or 0, size)
        return size.value

    def dump(self, room: int, flags: Optional[int] = None) -> Dump:
        """The routes, or those with one of these flags: as many as fit into `room` bytes. Raises ENOBUFS."""
        with self._lock:
            code = calls.hk_dump(self._handle, flags is not None, flags or 0, room)
            if code != Errno.ENOMEM:
                check(code)
            return Dump(self._fetched(), code == 0)

    def routes(self, flags: Optional[int] = None) -> List[Message]:
        """All routes, or those with one of these flags, as an RTM.GET each. Raises ENOBUFS.

        >>> from hoiskend import RTA
        >>> world = World()
        >>> world.attach("lo0", Kind.LOOPBACK, 24)
        >>> world.add_address("lo0", "127.0.0.1/8")
        >>> [message.addresses[RTA.DST] for message in world.routes()]
        [IPv4Address('127.0.0.1')]
        """
        found, is_whole = self.dump(MOST_ROOM, flags)
        if not is_whole:
            raise ENOMEM()
        return found

    def interfaces(self) -> List[Interface]:
        """The interfaces, in the order of their numbers. This, as the three that follow, changes nothing, not even what
        `text` gives.

        >>> world = World()
        >>> world.attach("le0", Kind.BROADCAST, 6, bytes(6))
        >>> [(interface.index, interface.name, interface.kind.name) for interface in world.interfaces()]
        [(1, b'le0', 'BROADCAST')]
        """
        with self._lock:
            return list(interfaces_in(self._handle))

    def addresses(self, interface: Union[Interface, int]) -> List[InterfaceAddress]:
        """The addresses of an interface, or of the one with this number, but those that were removed, in the order in which
        they were added. Raises ENXIO.

        >>> world = World()
        >>> world.attach("le0", Kind.BROADCAST)
        >>> world.addresses(1)
        []
        >>> world.add_address("le0", "10.0.0.1/8", cloning=True)
        >>> [(own.prefix, own.far, own.cloning, own.routed) for own in world.addresses(1)]
        [(8, IPv4Address('10.255.255.255'), True, True)]
        """
        number = interface.index if isinstance(interface, Interface) else interface
        with self._lock:
            return list(addresses_in(self._handle, number))

    def sockets(self) -> List[SocketState]:
        """The open sockets, in the order in which they were opened.

        >>> world = World()
        >>> a = world.listen("a", pid=100)
        >>> world.attach("lo0", Kind.LOOPBACK, 24)
        >>> world.add_address("lo0", "127.0.0.1/8")
        >>> state, = world.sockets()
        >>> state.socket == a, state.pid, state.lost, state.waiting == sum(map(len, a.read()))
        (True, 100, 0, True)
        """
        with self._lock:
            return [SocketState.of(found, Socket(self, id)) for id, found in sockets_in(self._handle)]

    def route(self, destination: Destination) -> Entry:
        """The route of the table with this destination, as `20.0.0.0/8`, or `20.0.0.1` for a host's; no use is counted.
        Raises ESRCH.

        >>> world = World()
        >>> world.attach("le0", Kind.BROADCAST)
        >>> world.add_address("le0", "10.0.0.1/8", cloning=True)
        >>> world.route("10.0.0.0/8").route.gateway
        IPv4Address('10.0.0.1')
        >>> world.route("10.9.9.9")
        Traceback (most recent call last):
        hoiskend.errors.ESRCH: ESRCH (3): No such route
        """
        found = _library.Entry()
        self._do(calls.hk_route_of, *key_and_rank(destination), found)
        return Entry.of(found)

    def line(self, line: Union[str, bytes]) -> None:
        """Does what a line of a script says, without its newline, or raises BadLine; `text` is what a transcript has of it,
        and `fetch` has its messages.

        >>> world = World()
        >>> world.line("open a 100 any")
        >>> world.text()
        'ok\\n'
        >>> world.line("read b")
        Traceback (most recent call last):
        hoiskend.errors.EBADF: EBADF (9): No such socket
        >>> world.text()
        'err 9\\n'
        """
        own = name_of(line)
        self._do(calls.hk_line, own, len(own))

    def text(self) -> str:
        """What a transcript has of the last command or line: its lines, each ended by a newline."""
        with self._lock:
            return _library.given(calls.hk_text, self._handle).decode("ascii")

    def fetch(self) -> List[Message]:
        """The messages of the last command or line."""
        with self._lock:
            return self._fetched()

    def _fetched(self) -> List[Message]:
        return list(messages_in(_library.given(calls.hk_fetch, self._handle)))


class Socket:
    """A routing socket of a world, by its id; two of the same world and id are equal. Once it is closed each call raises
    EBADF.

    >>> with World() as world, world.listen("a", 100) as a:
    ...     world.attach("lo0", Kind.LOOPBACK, 24)
    ...     world.add_address("lo0", "127.0.0.1/8")
    ...     [message.kind for message in a.read()]
    [<RTM.NEWADDR: 12>, <RTM.ADD: 1>]
    """

    def __init__(self, world: World, id: bytes) -> None:
        self.world, self.id = world, id

    def __eq__(self, other: object) -> bool:
        return isinstance(other, Socket) and self.world is other.world and self.id == other.id

    def __hash__(self) -> int:
        return hash((self.world, self.id))

    def __repr__(self) -> str:
        return f"<Socket {self.id!r}>"

    def __enter__(self) -> Socket:
        return self

    def __exit__(
        self, kind: Optional[Type[BaseException]], value: Optional[BaseException], trace: Optional[TracebackType]
    ) -> None:
        """Closes it, unless it or its world was closed already."""
        try:
            self.close()
        except (EINVAL, EBADF):
            pass

    def close(self) -> None:
        """Closes it; what it has heard goes with it."""
        self.world._do(calls.hk_shut_n, self.id, len(self.id))

    def loopback(self, on: bool) -> None:
        """Whether it hears the replies to its own writes, which it does at first."""
        self.world._do(calls.hk_loopback_n, self.id, len(self.id), on)

    def write(self, message: Union[Message, Bytes]) -> None:
        """Writes a message. Sockets hear what was done, and what was refused, but not a write to no socket, one of too many
        bytes, or one of another length than it says."""
        own = message_of(message)
        self.world._do(calls.hk_write_n, self.id, len(self.id), own, len(own))

    def add_route(self, destination: Destination, gateway: Gateway = None, **others: int) -> None:
        """Writes the message that adds a route, by way of a gateway. Others are `flags`, `seq`, `genmask`, `inits`, `locks`,
        and metrics by their names, as `mtu`.

        >>> world = World()
        >>> world.attach("le0", Kind.BROADCAST, 6)
        >>> world.add_address("le0", "10.0.0.1/8")
        >>> socket = world.listen("a", pid=100)
        >>> socket.add_route("20.0.0.0/8", "10.0.0.2", flags=3, mtu=1400)
        >>> socket.get_route("20.0.0.0/8")
        >>> socket.delete_route("20.0.0.0/8")
        """
        self._ask(calls.hk_add_route_n, destination, gateway, others)

    def delete_route(self, destination: Destination, **others: int) -> None:
        """Writes the message that deletes a route."""
        self._ask(calls.hk_delete_route_n, destination, None, others)

    def change_route(self, destination: Destination, gateway: Gateway = None, **others: int) -> None:
        """Writes the message that changes a route."""
        self._ask(calls.hk_change_route_n, destination, gateway, others)

    def get_route(self, destination: Destination, **others: int) -> None:
        """Writes the message that asks for a route."""
        self._ask(calls.hk_get_route_n, destination, None, others)

    def lock_route(self, destination: Destination, **others: int) -> None:
        """Writes the message that locks metrics of a route."""
        self._ask(calls.hk_lock_route_n, destination, None, others)

    def _ask(self, call: Callable[..., int], destination: Destination, gateway: Gateway, others: Dict[str, int]) -> None:
        self.world._do(call, self.id, len(self.id), request_of(destination, gateway, others))

    def write_as(self, system: System, message: Bytes) -> None:
        """Writes a message of another system. One that has no counterpart raises EPROTONOSUPPORT where its version is
        another, and else EINVAL, and nobody hears of it."""
        try:
            own = convert(system, System.BSD44, message)
        except MessageError as error:
            raise EPROTONOSUPPORT() if error.fault is Fault.VERSION else EINVAL() from error
        self.write(own)

    def read(self) -> List[Message]:
        """Takes the messages that it has heard."""
        with self.world._lock:
            check(calls.hk_read_n(self.world._handle, self.id, len(self.id)))
            return self.world._fetched()

    def lost(self) -> int:
        """How many messages it has lost since it was opened."""
        lost = ctypes.c_uint64()
        self.world._do(calls.hk_lost_n, self.id, len(self.id), lost)
        return lost.value
