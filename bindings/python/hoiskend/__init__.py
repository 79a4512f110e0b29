"""The routing core of 4.4BSD-Lite for IPv4, proved: worlds of interfaces, addresses, routes and routing sockets.

A World is told what happens, and tells what a kernel would: the route that a packet takes, the messages that each routing
socket hears. It does exactly what Hoiskend's machine on plain lists does, which is proved of the library below this package,
or raises ENOBUFS and has changed nothing.

>>> from hoiskend import RTA, RTF, RTM, Kind, Message, World
>>> with World() as world:
...     world.attach("le0", Kind.BROADCAST, 6, bytes.fromhex("080020010203"))
...     world.add_address("le0", "10.0.0.1/8", cloning=True)
...     daemon = world.listen("rd", pid=88)
...     route = {RTA.DST: "172.16.0.0", RTA.GATEWAY: "10.0.0.254", RTA.NETMASK: 12}
...     daemon.write(Message.request(RTM.ADD, route, flags=RTF.GATEWAY | RTF.STATIC))
...     [(message.kind.name, message.pid, message.errno) for message in daemon.read()]
[('ADD', 88, 0)]
"""
from .addresses import Address, AddressLike, LinkAddress
from .errors import (
    EADDRINUSE,
    EADDRNOTAVAIL,
    EBADF,
    EEXIST,
    EHOSTUNREACH,
    EINVAL,
    EMFILE,
    EMSGSIZE,
    ENETUNREACH,
    ENOBUFS,
    ENOMEM,
    ENOSPC,
    ENXIO,
    EOPNOTSUPP,
    EPROTONOSUPPORT,
    ESRCH,
    ETOOMANYREFS,
    BadLine,
    Errno,
    Error,
    Fault,
    MessageError,
    Refused,
)
from .messages import Message, Metrics, System, convert, messages_in, show
from .net_route import RTA, RTF, RTM, RTV
from .routes import Route
from .there import Entry, Interface, InterfaceAddress, Kind, SocketState
from .world import Dump, Socket, World

__all__ = [
    "Address", "AddressLike", "LinkAddress", "EADDRINUSE", "EADDRNOTAVAIL", "EBADF", "EEXIST", "EHOSTUNREACH",
    "EINVAL", "EMFILE", "EMSGSIZE", "ENETUNREACH", "ENOBUFS", "ENOMEM", "ENOSPC", "ENXIO", "EOPNOTSUPP",
    "EPROTONOSUPPORT", "ESRCH", "ETOOMANYREFS", "BadLine", "Errno", "Error", "Fault", "MessageError", "Refused",
    "Message", "Metrics", "System", "convert", "messages_in", "show", "RTA", "RTF", "RTM", "RTV", "Route", "Entry",
    "Interface", "InterfaceAddress", "Kind", "SocketState", "Dump", "Socket", "World",
]
