"""A second reading of messages in words, from docs/FORMATS.md."""
import struct

TYPES = {
    1: "ADD", 2: "DELETE", 3: "CHANGE", 4: "GET", 5: "LOSING", 6: "REDIRECT", 7: "MISS", 8: "LOCK", 9: "OLDADD",
    10: "OLDDEL", 11: "RESOLVE", 12: "NEWADDR", 13: "DELADDR", 14: "IFINFO",
}
ABOUT_ADDRESS = (12, 13)
ERRNOS = {
    3: "ESRCH", 6: "ENXIO", 9: "EBADF", 12: "ENOMEM", 17: "EEXIST", 22: "EINVAL", 24: "EMFILE", 28: "ENOSPC", 40: "EMSGSIZE",
    43: "EPROTONOSUPPORT", 45: "EOPNOTSUPP", 48: "EADDRINUSE", 49: "EADDRNOTAVAIL", 51: "ENETUNREACH", 55: "ENOBUFS",
    59: "ETOOMANYREFS", 65: "EHOSTUNREACH",
}
# Names of bits, the lowest first.
FLAGS = "UP GATEWAY HOST REJECT DYNAMIC MODIFIED DONE MASK CLONING XRESOLVE LLINFO STATIC BLACKHOLE - PROTO2 PROTO1".split()
IFA_FLAGS = ["ROUTE", *"-------", "CLONING"]
METRIC_BITS = "MTU HOPCOUNT EXPIRE RPIPE SPIPE SSTHRESH RTT RTTVAR".split()
ADDRESSES = "DST GATEWAY NETMASK GENMASK IFP IFA AUTHOR BRD".split()
METRICS = "mtu hopcount expire recvpipe sendpipe ssthresh rtt rttvar pksent".split()


def bits(name, number, names):
    named = ",".join(names[bit] for bit in range(len(names)) if number >> bit & 1 and names[bit] != "-")
    return f" {name} {number:08x}<{named}>\n"


def some(name, number):
    return f" {name} {number}\n" if number else ""


def header(message):
    """The lines of a message's header, and the number that names its addresses."""
    length, version, kind, *_ = struct.unpack_from(">HBB", message)
    front = f"RTM_{TYPES[kind]}" if kind in TYPES else str(kind)
    front += f": length {length}, version {version}, "
    if kind in ABOUT_ADDRESS:
        addrs, flags, index, padding, metric = struct.unpack_from(">IIHHI", message, 4)
        return f"{front}index {index}, metric {metric}\n" + bits("flags", flags, IFA_FLAGS) + some("padding", padding), addrs
    index, padding, flags, addrs, pid, seq, errno, use, inits, locks, *metrics = struct.unpack_from(">HH17I", message, 4)
    told = f"{front}pid {pid}, seq {seq}, index {index}\n" + bits("flags", flags, FLAGS)
    told += f" errno {errno} ({ERRNOS.get(errno, 'unknown')})\n" if errno else ""
    told += some("use", use) + some("padding", padding)
    told += "".join(bits(name, number, METRIC_BITS) for name, number in (("inits", inits), ("locks", locks)) if number)
    return told + "".join(map(some, METRICS, metrics)), addrs


def mask_of(prefix):
    """The bytes of a mask, with its padding."""
    text = (2**32 - 2 ** (32 - prefix)).to_bytes(4, "big")
    return bytes([4 + -(-prefix // 8), 0, 0, 0]) + text if prefix else bytes(4)


def link_of(text):
    """What a link-layer address tells, or None where it tells less than its bytes."""
    if len(text) < 8:
        return None
    size, family, index, kind, n, m, selector = struct.unpack_from(">BBHBBBB", text)
    name, address, behind = text[8 : 8 + n], text[8 + n : 8 + n + m], text[8 + n + m :]
    is_plain = all(32 < byte < 127 and byte != ord(":") for byte in name)
    if (family, selector, len(name), len(address)) != (18, 0, n, m) or room(size) != len(text) or not is_plain or any(behind):
        return None
    return f"link {name.decode()}:{address.hex()} index {index} type {kind} length {size}"


def address(name, text):
    """An address in words, by its bytes with its padding."""
    dotted = ".".join(map(str, text[4:8]))
    if text == bytes([16, 2, 0, 0]) + text[4:8] + bytes(8):
        return dotted
    prefixes = [prefix for prefix in range(33) if text == mask_of(prefix)] if name.endswith("MASK") else []
    if prefixes:
        return f"{dotted or '0.0.0.0'} (/{prefixes[0]})"
    return link_of(text) or f"bytes {text.hex()}"


def room(size):
    """The bytes that an address of this length takes."""
    return max(4, size + -size % 4)


def reading(message):
    """The text of any bytes."""
    size = 20 if message[3:4] and message[3] in ABOUT_ADDRESS else 76
    no_message = f"no message: {message.hex()}\n "
    if len(message) < size or int.from_bytes(message[:2], "big") != len(message):
        return no_message + "the length is wrong\n"
    if message[2] != 3:
        return no_message + "the version is not 3\n"
    told, addrs = header(message)
    told += bits("addrs", addrs, ADDRESSES)
    rest = message[size:]
    for bit, name in enumerate(ADDRESSES):
        if addrs >> bit & 1 and rest:
            if rest[0] > len(rest):
                return no_message + "an address passes the end\n"
            told += f" {name} {address(name, rest[: room(rest[0])])}\n"
            rest = rest[room(rest[0]) :]
    return told + (f" behind {rest.hex()}\n" if rest else "")
