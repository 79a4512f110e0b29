"""Routes, and what is asked of one."""
from __future__ import annotations

from dataclasses import dataclass
from ipaddress import IPv4Address, IPv4Network
from operator import index
from typing import Dict, Optional, Union

from . import _library
from .addresses import LinkAddress
from .net_route import AF_INET, AF_LINK, RTF

# What IPv4Address takes.
InetLike = Union[str, int, bytes, IPv4Address]
# A network, or an address, which is a host's: "20.0.0.0/8", "20.0.0.1".
Destination = Union[InetLike, IPv4Network]
Gateway = Union[InetLike, LinkAddress, None]
HOST = 33
METRICS = "mtu", "hopcount", "expire", "recvpipe", "sendpipe", "ssthresh", "rtt", "rttvar"
OTHERS = {"flags", "seq", "genmask", "inits", "locks", *METRICS}


def number_of(address: InetLike) -> int:
    return int(IPv4Address(address))


def key_and_rank(destination: Destination) -> tuple[int, int]:
    """Its number, and the bits of its mask, or HOST."""
    if isinstance(destination, str) and "/" in destination:
        destination = IPv4Network(destination)
    if isinstance(destination, IPv4Network):
        return int(destination.network_address), destination.prefixlen
    return number_of(destination), HOST


def bits_of(rank: int) -> Optional[int]:
    """The bits of a mask, or None where there is none."""
    return None if rank == HOST else rank


def request_of(destination: Destination, gateway: Gateway, others: Dict[str, int]) -> _library.Request:
    """The request that says this, as the library reads it."""
    if not OTHERS.issuperset(others):
        raise TypeError(f"a request has no {', '.join(sorted(set(others) - OTHERS))}")
    key, rank = key_and_rank(destination)
    request = _library.Request(destination=key, prefix=rank, genmask=HOST)
    for name, value in others.items():
        most = 255 if name == "genmask" else (1 << 32) - 1
        if not 0 <= index(value) <= most:
            raise OverflowError(f"{name} isn't from 0 to {most}")
        setattr(request, name, value)
    request.inits |= sum(1 << bit for bit, name in enumerate(METRICS) if name in others)
    if isinstance(gateway, LinkAddress):
        request.family, request.link_n = AF_LINK, len(gateway.data)
        request.link[: len(gateway.data)] = gateway.data
    elif gateway is not None:
        request.family, request.gateway = AF_INET, number_of(gateway)
    return request


@dataclass(frozen=True)
class Route:
    """The route that a packet takes."""

    key: IPv4Address
    # The bits of its mask, or None where it is a host's and has none.
    prefix: Optional[int]
    gateway: Union[IPv4Address, LinkAddress]
    # The number of the interface that it leaves by, from 1.
    index: int
    flags: RTF
    # Whether the packet is dropped without an error.
    drops: bool

    @classmethod
    def of(cls, found: _library.Route) -> Route:
        """That which the library has written."""
        gateway: Union[IPv4Address, LinkAddress] = IPv4Address(found.gateway)
        if found.family != AF_INET:
            gateway = LinkAddress(bytes(found.link)[: found.link_n])
        return cls(IPv4Address(found.key), bits_of(found.rank), gateway, found.index, RTF(found.flags), found.drops)

    @property
    def network(self) -> IPv4Network:
        """What it leads to; of a host's route the host alone."""
        return IPv4Network((self.key, 32 if self.prefix is None else self.prefix), strict=False)
