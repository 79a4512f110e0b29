"""Messages by the package for Python: taken apart, made, in the layouts of systems of today and back."""
import re
from ipaddress import IPv4Address

from in_words import messages_of
from messages import any_shown

import hoiskend
from hoiskend import RTA, RTM, Fault, LinkAddress, Message, MessageError, System


def fields_in(text):
    """What a message in words says of its header: the numbers by their names."""
    front, *lines = text.split("\n")
    found = {name: int(number) for name, number in re.findall(r"(length|version|pid|seq|index|metric) (\d+)", front)}
    kind = front.split(":")[0]
    found["kind"] = RTM[kind[4:]] if kind.startswith("RTM_") else int(kind)
    for line in lines:
        field = re.fullmatch(r" (flags|addrs|inits|locks) ([0-9a-f]{8})<.*>", line)
        if field:
            found[field[1]] = int(field[2], 16)
        field = re.fullmatch(r" (?!behind )([a-z]+) (\d+)( \(\w+\))?", line)
        if field:
            found[field[1]] = int(field[2])
    return found


def is_shown_as(address, words):
    """Whether an address is what a message in words shows; bytes may be anything that can be read."""
    if words.startswith("bytes "):
        return True
    if words.startswith("link "):
        form = r"link (.*):(\w*) index (\d+) type (\d+) length (\d+)"
        name, digits, index, number, size = re.fullmatch(form, words).groups()
        if not 8 <= int(size) <= 32:
            return isinstance(address, bytes)
        if 8 + len(name) + len(digits) // 2 > int(size):
            return isinstance(address, LinkAddress)
        got = address.name.decode(), address.address.hex(), address.index, address.type_number
        return got == (name, digits, int(index), int(number))
    prefix = re.fullmatch(r"[\d.]+ \(/(\d+)\)", words)
    if prefix or not isinstance(address, int):
        return address == (int(prefix[1]) if prefix else IPv4Address(words))
    # a whole sockaddr_in in the place of a mask
    return words == str(IPv4Address((1 << 32) - (1 << 32 - address)))


ADDRESS = re.compile(r"^ (DST|GATEWAY|NETMASK|GENMASK|IFP|IFA|AUTHOR|BRD) (.*)$", re.M)
FAULTS = {
    "the length is wrong": Fault.LENGTH, "the version is not 3": Fault.VERSION, "an address passes the end": Fault.OVERRUN,
}


def is_taken_apart(data):
    """Whether the fields and addresses of a message are those that it shows in words; and bytes that are no message are
    refused for what these say, whose header may be read nevertheless."""
    text = hoiskend.show(data)
    try:
        message = Message(data)
        addresses = message.addresses
    except MessageError as error:
        return text.startswith("no message: ") and FAULTS[text.splitlines()[1].strip()] is error.fault
    if text.startswith("no message: ") or str(message) != text or bytes(message) != data or len(message) != len(data):
        return False
    named, shown = fields_in(text), ADDRESS.findall(text)
    fields = {name: message.field(name) for name in (*hoiskend.net_route.AT, "metric")}
    by_name = {
        "length": message.length, "version": message.version, "kind": message.kind, "index": message.index,
        "flags": message.flags, "pid": message.pid, "seq": message.seq, "errno": message.errno, "use": message.use,
        "inits": message.inits, "metric": message.metric, **message.metrics._asdict(),
    }
    return (
        fields == {name: named.get(name, 0) for name in fields}
        and by_name == {name: named.get(name, 0) for name in by_name}
        and [bit.name for bit in addresses] == [name for name, _ in shown]
        and all(is_shown_as(addresses[RTA[name]], words) for name, words in shown)
        and eval(repr(message), {"Message": Message}) == message
    )


def is_made_again(data):
    """Whether a message about a route with no odd address is what its fields and addresses make."""
    message = Message(data)
    if str(message).startswith("no message: "):
        return True
    odd = any(isinstance(address, bytes) for address in message.addresses.values())
    if odd or message.kind in (RTM.NEWADDR, RTM.DELADDR):
        return True
    made = Message.request(
        message.kind, message.addresses, flags=message.flags, seq=message.seq, index=message.index, pid=message.pid,
        inits=message.inits, metrics=message.metrics,
    )
    return (made.addresses, made.metrics, made.flags) == (message.addresses, message.metrics, message.flags)


def take_apart(sweep, examples):
    """The messages of the examples and such as have anything in them, from fixed seeds."""
    told = sorted({message for example in examples for message in messages_of(example)})
    for data in told:
        sweep.claim(f"{data.hex()} is taken apart", is_taken_apart(data) and is_made_again(data))
    for seed in range(4):
        for data in any_shown(seed):
            sweep.claim(f"{data[:92].hex()} is taken apart", is_taken_apart(data))
    for data in told:
        for system in System if not hoiskend.show(data).startswith("no message: ") else ():
            back = Message.of(system, Message(data).to(system))
            sweep.claim(f"{data.hex()} for {system.name} and back", back.kind == data[3])
    whole = b"".join(told)
    sweep.claim("messages one after another", [bytes(message) for message in hoiskend.messages_in(whole)] == told != [])
