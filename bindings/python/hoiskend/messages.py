"""Messages of a routing socket: taken apart, made, in words, and in the layouts of systems of today."""
from __future__ import annotations

from dataclasses import dataclass
from enum import IntEnum
from typing import Dict, Iterator, Mapping, NamedTuple, Union

from . import _library
from .addresses import Address, AddressLike, address_in, bytes_of
from .errors import Fault, MessageError, check
from .net_route import AT, HEADER_BYTES, IFA_AT, IFA_HEADER_BYTES, MESSAGE_BYTES, RTA, RTF, RTM, RTM_VERSION, RTV

Bytes = Union[bytes, bytearray, memoryview]


class System(IntEnum):
    """A system, by the layout of its messages: 4.4BSD as it is here, the others on 64-bit machines that keep the lowest
    byte first; NetBSD up to 7."""

    BSD44 = 0
    FREEBSD = 1
    OPENBSD = 2
    NETBSD = 3
    MACOS = 4


class Metrics(NamedTuple):
    """The ten metrics of a route; `locks` says which of the others are locked."""

    locks: int = 0
    mtu: int = 0
    hopcount: int = 0
    expire: int = 0
    recvpipe: int = 0
    sendpipe: int = 0
    ssthresh: int = 0
    rtt: int = 0
    rttvar: int = 0
    pksent: int = 0


def show(data: Bytes) -> str:
    """Any bytes as a message in words; of those that are none, in hexadecimal, and why.

    >>> print(show(bytes([0, 4])), end="")
    no message: 0004
     the length is wrong
    """
    code, text = _library.show(bytes(memoryview(data)))
    check(code)
    return text.decode("ascii")


def convert(source: System, to: System, data: Bytes) -> bytes:
    """A message of one system in the layout of another. What has no place there is left out. MessageError says why a
    message has no counterpart."""
    code, there = _library.convert(System(source), System(to), bytes(memoryview(data)))
    check(code)
    return there


@dataclass(frozen=True)
class Message:
    """A message of a routing socket, by its bytes: `bytes(message)`. `str(message)` has it in words.

    Fewer bytes than a header, and bytes that say another length than they have, raise MessageError of Fault.LENGTH. All
    else is taken, since a socket also hears what was refused: `addresses` raises MessageError where the version isn't 3
    (VERSION), or an address passes the end (OVERRUN).

    A field that the message's header hasn't is 0: RTM.NEWADDR and RTM.DELADDR have no pid, seq, errno, use, inits and
    metrics, and the others no metric.

    >>> get = Message.request(RTM.GET, {RTA.DST: "10.9.9.9"}, seq=7)
    >>> get.kind, get.seq, get.addresses
    (<RTM.GET: 4>, 7, {<RTA.DST: 1>: IPv4Address('10.9.9.9')})
    >>> print(get, end="")
    RTM_GET: length 92, version 3, pid 0, seq 7, index 0
     flags 00000000<>
     addrs 00000001<DST>
     DST 10.9.9.9
    >>> Message(bytes(get)[:-1])
    Traceback (most recent call last):
    hoiskend.errors.MessageError: the length is wrong
    """

    data: bytes

    def __post_init__(self) -> None:
        object.__setattr__(self, "data", bytes(memoryview(self.data)))
        if _library.header(self.data)[0] == Fault.LENGTH:
            raise MessageError(Fault.LENGTH)

    @classmethod
    def of(cls, system: System, data: Bytes) -> Message:
        """A message of another system."""
        return cls(convert(system, System.BSD44, data))

    @classmethod
    def request(
        cls,
        kind: RTM,
        addresses: Mapping[RTA, AddressLike],
        *,
        flags: int = 0,
        seq: int = 1,
        index: int = 0,
        pid: int = 0,
        inits: int = 0,
        metrics: Metrics = Metrics(),
    ) -> Message:
        """A message to be written. An address is what `addresses` gives, or a text of an IPv4 address; a mask is the
        number of its bits.

        >>> add = {RTA.DST: "172.16.0.0", RTA.GATEWAY: "10.0.0.254", RTA.NETMASK: 12}
        >>> Message.request(RTM.ADD, add, flags=RTF.UP | RTF.GATEWAY | RTF.STATIC).addresses[RTA.NETMASK]
        12
        """
        behind = b"".join(bytes_of(bit, addresses[bit]) for bit in sorted(addresses))
        named = {"flags": flags, "seq": seq, "index": index, "pid": pid, "inits": inits, **metrics._asdict()}
        named.update(length=HEADER_BYTES + len(behind), version=RTM_VERSION, kind=kind, addrs=sum(addresses))
        if named["length"] > MESSAGE_BYTES:
            raise MessageError(Fault.LENGTH)
        head = bytearray(HEADER_BYTES)
        for name, number in named.items():
            at, width = AT[name]
            head[at : at + width] = number.to_bytes(width, "big")
        return cls(bytes(head) + behind)

    def field(self, name: str) -> int:
        """A field of the header by its name, or 0 where the header hasn't it."""
        at, width = header_of(self.data)[0].get(name, (0, 0))
        return int.from_bytes(self.data[at : at + width], "big")

    @property
    def _header(self) -> _library.Header:
        return _library.header(self.data)[1]

    @property
    def length(self) -> int:
        return len(self.data)

    @property
    def version(self) -> int:
        return self.field("version")

    @property
    def kind(self) -> Union[RTM, int]:
        """Its type, or the number of one that has no name."""
        kind: int = self._header.kind
        try:
            return RTM(kind)
        except ValueError:
            return kind

    @property
    def index(self) -> int:
        """The number of its interface."""
        return int(self._header.index)

    @property
    def flags(self) -> RTF:
        return RTF(self._header.flags)

    @property
    def pid(self) -> int:
        """The process that wrote it."""
        return int(self._header.pid)

    @property
    def seq(self) -> int:
        """The number by which its writer knows it."""
        return int(self._header.seq)

    @property
    def errno(self) -> int:
        """Why it was refused, or 0; `Errno(message.errno)` has its name."""
        return int(self._header.error)

    @property
    def use(self) -> int:
        """How often its route was used."""
        return int(self._header.use_count)

    @property
    def inits(self) -> RTV:
        """Which metrics it sets."""
        return RTV(self._header.inits)

    @property
    def metrics(self) -> Metrics:
        header = self._header
        return Metrics(*(getattr(header, name) for name in Metrics._fields))

    @property
    def metric(self) -> int:
        """Of RTM.NEWADDR and RTM.DELADDR."""
        return int(self._header.metric)

    @property
    def addresses(self) -> Dict[RTA, Address]:
        """The addresses that are there, in their order: IPv4 addresses, of a mask the number of its bits, link-layer
        addresses, and bytes of what is none of these. Raises MessageError."""
        check(_library.header(self.data)[0])
        found = ((bit, *_library.address(self.data, bit)) for bit in RTA)
        return {bit: address_in(self.data, address) for bit, code, address in found if code == 0}

    def to(self, system: System) -> bytes:
        """The message in the layout of another system."""
        return convert(System.BSD44, system, self.data)

    def __bytes__(self) -> bytes:
        return self.data

    def __len__(self) -> int:
        return len(self.data)

    def __str__(self) -> str:
        return show(self.data)

    def __repr__(self) -> str:
        return f"Message(bytes.fromhex({self.data.hex()!r}))"


def header_of(data: bytes) -> tuple[Mapping[str, tuple[int, int]], int]:
    """The fields of the message's header, and where it ends."""
    is_of_address = len(data) > 3 and data[3] in (RTM.NEWADDR, RTM.DELADDR)
    return (IFA_AT, IFA_HEADER_BYTES) if is_of_address else (AT, HEADER_BYTES)


def messages_in(data: bytes) -> Iterator[Message]:
    """The messages of a fetch, one after another."""
    at = 0
    while at < len(data):
        end = at + int.from_bytes(data[at : at + 2], "big")
        yield Message(data[at:end])
        at = end
