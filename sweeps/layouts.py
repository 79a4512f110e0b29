"""A second writing of the layouts of systems of today, from docs/FORMATS.md: a message of one of them in another."""
import struct

# The members of the two headers one behind the other, as struct's letters and names; x is padding, and so is what has no
# name of a field.
HEADS = {
    "bsd44": (
        "H length B version B type H index xx I flags I addrs I pid I seq I errno I use I inits I locks I mtu I hopcount"
        " I expire I recvpipe I sendpipe I ssthresh I rtt I rttvar I pksent",
        "H length B version B type I addrs I flags H index xx I metric",
    ),
    "freebsd": (
        "H length B version B type H index xx I flags I addrs I pid I seq I errno xxxx Q inits Q locks Q mtu Q hopcount"
        " Q expire Q recvpipe Q sendpipe Q ssthresh Q rtt Q rttvar Q pksent xxxxxxxx xxxxxxxx xxxxxxxx xxxxxxxx",
        "H length B version B type I addrs I flags H index xx I metric",
    ),
    "openbsd": (
        "H length B version B type H size H index xx x x I addrs I flags xxxx I pid I seq I errno I inits Q pksent Q expire"
        " I locks I mtu xxxx I hopcount I recvpipe I sendpipe I ssthresh I rtt I rttvar xxxx",
        "H length B version B type H size H index xx x x I addrs I flags I metric",
    ),
    "netbsd": (
        "H length B version B type H index xx I flags I addrs I pid I seq I errno I use I inits xxxx Q locks Q mtu Q hopcount"
        " Q recvpipe Q sendpipe Q ssthresh Q rtt Q rttvar Q expire Q pksent",
        "H length B version B type I addrs I flags I metric H index xxxxxx",
    ),
    "darwin": (
        "H length B version B type H index xx I flags I addrs I pid I seq I errno I use I inits I locks I mtu I hopcount"
        " I expire I recvpipe I sendpipe I ssthresh I rtt I rttvar I pksent xxxxxxxx xxxxxxxx",
        "H length B version B type I addrs I flags H index xx I metric",
    ),
}
SYSTEMS = tuple(HEADS)
ORDER = {system: ">" if system == "bsd44" else "<" for system in SYSTEMS}
VERSION = {"bsd44": 3, "freebsd": 5, "openbsd": 5, "netbsd": 4, "darwin": 5}
WORD = {"bsd44": 4, "freebsd": 8, "openbsd": 8, "netbsd": 8, "darwin": 4}
# The flags that mean in a system what they mean in 4.4BSD.
FLAGS = {"bsd44": 0xFFFF, "freebsd": 0xFFFF, "openbsd": 0xDDFF, "netbsd": 0xDFFF, "darwin": 0xDF7F}
NOT_SUPPORTED = {"darwin": 102}
MOST_LINK = {"bsd44": 32}
LEAST_MASK = {"darwin": 8}
MASKS = (2, 3)
ABOUT_ADDRESS = (12, 13)


class Refused(Exception):
    """A message that has no counterpart, with the word for why."""


def header(system, kind):
    """The form of the header of a message of this type, and the names of its fields."""
    words = HEADS[system][kind in ABOUT_ADDRESS].split()
    letters = [word for word in words if len(word) == 1 or not word.strip("x")]
    names = [word for word in words if word not in letters]
    return struct.Struct(ORDER[system] + "".join(letters)), names


def room(word, length):
    return max(length, 1) + -max(length, 1) % word


def address(source, to, bit, text):
    """An address with its length byte, without padding, as the other system has it."""
    if bit in MASKS:
        least = LEAST_MASK.get(to, 0)
        if 5 <= text[0] < least:
            text = bytes([least]) + text[1:] + bytes(least - len(text))
        return text
    if len(text) < 2 or text[1] != 18:
        return text
    most = MOST_LINK.get(to, 255)
    if len(text) > most:
        size = max(20, 8 + sum(text[5:8]))
        if size > most or any(text[size:]):
            raise Refused("Wide")
        text = bytes([size]) + text[1:size]
    if len(text) >= 4 and ORDER[source] != ORDER[to]:
        text = text[:2] + text[3:1:-1] + text[4:]
    return text


def addresses(source, to, named, behind):
    """The addresses of these bits as the other system has them, and the bits of those that are there."""
    bits, at, slots = 0, 0, []
    for bit in range(8):
        if named >> bit & 1 and at < len(behind):
            length = behind[at]
            if at + length > len(behind):
                raise Refused("Overrun")
            slots.append((bit, behind[at : at + max(length, 1)]))
            bits |= 1 << bit
            at += room(WORD[source], length)
    texts = [address(source, to, *slot) for slot in slots]
    return bits, b"".join(text + bytes(room(WORD[to], text[0]) - len(text)) for text in texts)


def convert(source, to, message):
    """The message in the other system's layout."""
    kind = message[3] if len(message) > 3 else 0
    if not 1 <= kind <= 13:
        raise Refused("Kind")
    form, names = header(source, kind)
    if len(message) < form.size:
        raise Refused("Length")
    fields = dict(zip(names, form.unpack_from(message)))
    if fields["length"] != len(message) or fields.get("size", form.size) != form.size:
        raise Refused("Length")
    if fields["version"] != VERSION[source]:
        raise Refused("Version")
    bits, behind = addresses(source, to, fields["addrs"], message[form.size :])
    form, names = header(to, kind)
    if fields.get("errno") == NOT_SUPPORTED.get(source, 45):
        fields["errno"] = NOT_SUPPORTED.get(to, 45)
    fields.update(length=form.size + len(behind), version=VERSION[to], size=form.size, addrs=bits)
    fields["flags"] &= FLAGS[source] & FLAGS[to]
    try:
        return form.pack(*(fields.get(name, 0) for name in names)) + behind
    except struct.error as error:
        raise Refused("Wide") from error
