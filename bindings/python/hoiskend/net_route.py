"""The numbers of messages by name, as <net/route.h> of 4.4BSD has them, and where the fields of a header stand."""
from __future__ import annotations

from enum import IntEnum, IntFlag

RTM_VERSION = 3


class RTM(IntEnum):
    """The types of messages. Of OLDADD, OLDDEL and IFINFO none is made."""

    ADD = 1
    DELETE = 2
    CHANGE = 3
    GET = 4
    LOSING = 5
    REDIRECT = 6
    MISS = 7
    LOCK = 8
    OLDADD = 9
    OLDDEL = 10
    RESOLVE = 11
    NEWADDR = 12
    DELADDR = 13
    IFINFO = 14


class RTA(IntFlag):
    """The addresses of a message, in the order in which they stand."""

    DST = 0x1
    GATEWAY = 0x2
    NETMASK = 0x4
    GENMASK = 0x8
    IFP = 0x10
    IFA = 0x20
    AUTHOR = 0x40
    BRD = 0x80


class RTF(IntFlag):
    """The flags of a route."""

    UP = 0x1
    GATEWAY = 0x2
    HOST = 0x4
    REJECT = 0x8
    DYNAMIC = 0x10
    MODIFIED = 0x20
    DONE = 0x40
    MASK = 0x80
    CLONING = 0x100
    XRESOLVE = 0x200
    LLINFO = 0x400
    STATIC = 0x800
    BLACKHOLE = 0x1000
    PROTO2 = 0x4000
    PROTO1 = 0x8000


# Among the flags of an interface's address: its route was added.
IFA_ROUTE = 0x1


class RTV(IntFlag):
    """The metrics that a message sets, or that are locked."""

    MTU = 0x1
    HOPCOUNT = 0x2
    EXPIRE = 0x4
    RPIPE = 0x8
    SPIPE = 0x10
    SSTHRESH = 0x20
    RTT = 0x40
    RTTVAR = 0x80


# The fields of an rt_msghdr: where each begins, and how many bytes it has, the highest first.
AT = {
    "length": (0, 2),
    "version": (2, 1),
    "kind": (3, 1),
    "index": (4, 2),
    "padding": (6, 2),
    "flags": (8, 4),
    "addrs": (12, 4),
    "pid": (16, 4),
    "seq": (20, 4),
    "errno": (24, 4),
    "use": (28, 4),
    "inits": (32, 4),
    "locks": (36, 4),
    "mtu": (40, 4),
    "hopcount": (44, 4),
    "expire": (48, 4),
    "recvpipe": (52, 4),
    "sendpipe": (56, 4),
    "ssthresh": (60, 4),
    "rtt": (64, 4),
    "rttvar": (68, 4),
    "pksent": (72, 4),
}
HEADER_BYTES = 76

# The fields of an ifa_msghdr, which RTM.NEWADDR and RTM.DELADDR have.
IFA_AT = {
    "length": (0, 2),
    "version": (2, 1),
    "kind": (3, 1),
    "addrs": (4, 4),
    "flags": (8, 4),
    "index": (12, 2),
    "padding": (14, 2),
    "metric": (16, 4),
}
IFA_HEADER_BYTES = 20

# The bytes of an IPv4 address in a message, the most of a mask as the machine makes one, of a link-layer address, of a
# socket's queue, of a message that is written, and of a write.
INET_BYTES = 16
MASK_BYTES = 8
LINK_BYTES = 32
QUEUE_BYTES = 8192
MESSAGE_BYTES = 8192
WRITE_BYTES = 8246
AF_INET, AF_LINK = 2, 18
