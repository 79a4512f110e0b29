"""Addresses as they stand in messages."""
from __future__ import annotations

from dataclasses import dataclass
from ipaddress import IPv4Address
from typing import Union

from . import _library
from .net_route import AF_INET, AF_LINK, INET_BYTES, LINK_BYTES, RTA

MASKS = RTA.NETMASK | RTA.GENMASK
LEAST_LINK, FRONT_OF_LINK = 20, 8


@dataclass(frozen=True)
class LinkAddress:
    """A link-layer address as a message writes it (`sockaddr_dl`): 8 to 32 bytes, the first of which is their number.

    >>> LinkAddress.of("le0", bytes.fromhex("080020010203"))
    LinkAddress.of('le0', bytes.fromhex('080020010203'), index=1, type_number=6)
    """

    data: bytes

    @classmethod
    def of(cls, name: Union[str, bytes], address: bytes = b"", index: int = 1, type_number: int = 6) -> LinkAddress:
        """That of the interface of this name and number."""
        front = name.encode() if isinstance(name, str) else name
        size = max(LEAST_LINK, rounded(FRONT_OF_LINK + len(front) + len(address)))
        if size > LINK_BYTES:
            raise ValueError(f"a link-layer address of more than {LINK_BYTES} bytes")
        head = bytes([size, AF_LINK, *index.to_bytes(2, "big"), type_number, len(front), len(address), 0])
        return cls((head + front + address).ljust(size, b"\0"))

    @property
    def index(self) -> int:
        """The number of its interface."""
        return int.from_bytes(self.data[2:4], "big")

    @property
    def type_number(self) -> int:
        """That of <net/if_types.h>."""
        return self.data[4]

    @property
    def name(self) -> bytes:
        """The name of its interface."""
        return self.data[FRONT_OF_LINK:][: self.data[5]]

    @property
    def address(self) -> bytes:
        return self.data[FRONT_OF_LINK + self.data[5] :][: self.data[6]]

    def __bytes__(self) -> bytes:
        return self.data

    def __repr__(self) -> str:
        name = self.name.decode("latin-1")
        words = f"{name!r}, bytes.fromhex({self.address.hex()!r}), index={self.index}, type_number={self.type_number}"
        if name.isascii() and LinkAddress.is_made_of(self):
            return f"LinkAddress.of({words})"
        return f"LinkAddress(bytes.fromhex({self.data.hex()!r}))"

    def is_made_of(self) -> bool:
        """Whether it has what its four parts say, and nothing else."""
        try:
            return LinkAddress.of(self.name, self.address, self.index, self.type_number) == self
        except ValueError:
            return False


# What stands at a bit of a message: of a mask the number of its bits, and bytes where they are nothing of these.
Address = Union[IPv4Address, int, LinkAddress, bytes]
# What may be given for one.
AddressLike = Union[Address, str]


def rounded(size: int) -> int:
    """The bytes that an address of this length takes in a message."""
    return max(4, size + -size % 4)


def mask_number(bits: int) -> int:
    return (1 << 32) - (1 << (32 - bits))


def address_in(message: bytes, found: _library.Sockaddr) -> Address:
    """The address that the library found in a message."""
    data = message[found.at :][: found.n]
    if found.form == _library.FORM_INET:
        return IPv4Address(found.inet)
    if found.form == _library.FORM_MASK:
        return int(found.bits)
    return LinkAddress(data) if found.form == _library.FORM_LINK else data


def bytes_of(bit: RTA, address: AddressLike) -> bytes:
    """The bytes of an address at this bit, with padding."""
    if isinstance(address, (bytes, LinkAddress)):
        data = bytes(address)
        return data + bytes(rounded(data[0] if data else 0) - len(data))
    if bit & MASKS and isinstance(address, int):
        if not 0 <= address <= 32:
            raise ValueError(f"a mask of {address} bits")
        size = 4 + -(-address // 8) if address else 0
        return bytes([size, 0, 0, 0]) + (mask_number(address).to_bytes(4, "big") if address else b"")
    return bytes([INET_BYTES, AF_INET, 0, 0]) + IPv4Address(address).packed + bytes(8)
