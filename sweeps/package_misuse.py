"""The package for Python as it isn't meant: closed worlds, names of each length, numbers beyond their type, things of other
types, and worlds that threads share."""
import gc
import threading

from calls import OK
from package_worlds import answered

import hoiskend
from hoiskend import RTA, RTM, Kind, LinkAddress, Message, MessageError, Socket, System, World
from hoiskend.routes import OTHERS


def begun():
    world = World()
    world.attach("le0", Kind.BROADCAST, 6, bytes.fromhex("080020010203"))
    world.add_address("le0", "10.0.0.1/8", cloning=True)
    return world, world.listen("a", 100)


def calls_of(world, socket):
    """A call of each method, which an open world would do."""
    get = Message.request(RTM.GET, {RTA.DST: "10.9.9.9"})
    return {
        "attach": lambda: world.attach("ed0", Kind.BROADCAST), "add_address": lambda: world.add_address("le0", "10.0.0.2/8"),
        "remove_address": lambda: world.remove_address("le0", "10.0.0.1"), "listen": lambda: world.listen("b", 1),
        "packet": lambda: world.packet("10.9.9.9"), "redirect": lambda: world.redirect("20.0.0.1", "10.0.0.2", "10.0.0.1"),
        "losing": lambda: world.losing("10.9.9.9"), "dump_size": world.dump_size, "dump": lambda: world.dump(1000),
        "interfaces": world.interfaces, "addresses": lambda: world.addresses(1), "sockets": world.sockets,
        "route": lambda: world.route("10.0.0.0/8"), "routes": world.routes, "line": lambda: world.line("read a"), "close": socket.close,
        "loopback": lambda: socket.loopback(True), "write": lambda: socket.write(get), "read": socket.read,
        "write_as": lambda: socket.write_as(System.FREEBSD, get.to(System.FREEBSD)), "lost": socket.lost,
        "add_route": lambda: socket.add_route("30.0.0.0/8", "10.0.0.2"), "delete_route": lambda: socket.delete_route("10.0.0.0/8"),
        "change_route": lambda: socket.change_route("10.0.0.0/8", mtu=9), "get_route": lambda: socket.get_route("10.9.9.9"),
        "lock_route": lambda: socket.lock_route("10.0.0.0/8", inits=1, locks=1),
    }


def raises(kind, call, at_least=False):
    """Whether a call raises exactly this, or at least something of this kind."""
    try:
        call()
    except kind as error:
        return at_least or type(error) is kind
    return False


def methods(kind):
    return {name for name, value in vars(kind).items() if callable(value) and not name.startswith("_")}


def close_worlds(sweep, library):
    """Each call on a closed world is refused; what gives bytes gives none; a world that nobody has is freed."""
    world, socket = begun()
    calls = calls_of(world, socket)
    sweep.claim("each method is tried", {*calls, "fetch", "text"} == methods(World) | methods(Socket))
    world.close()
    for name, call in calls.items():
        sweep.claim(f"{name} on a closed world", raises(hoiskend.EINVAL, call))
    sweep.claim("bytes of a closed world", (world.fetch(), world.text()) == ([], ""))
    world.close()
    with World() as world, world.listen("a", 1) as socket:
        world.close()
    with World() as world, world.listen("a", 1) as socket:
        socket.close()
        sweep.claim("a closed socket", raises(hoiskend.EBADF, socket.read))
    world, socket = begun()
    del world, socket, calls, call
    gc.collect()
    sweep.claim("worlds that nobody has leave nothing", library.get("blocks") == 0)


def give_what_says_nothing(sweep):
    """Names of each length, numbers beyond their type, and things of other types."""
    for size in (0, 1, 8, 9, 64, 1 << 20):
        world, _ = begun()
        for what, call in {
            "attach": lambda: world.attach(b"x" * size, Kind.LOOPBACK), "listen": lambda: world.listen("y" * size, 1),
        }.items():
            holds = answered(call)[0] == OK if 1 <= size <= 8 else raises(hoiskend.EINVAL, call)
            sweep.claim(f"{what} with a name of {size} bytes", holds)
    world, socket = begun()
    refused = {
        OverflowError: [
            lambda: world.listen("b", -1), lambda: world.listen("b", 1 << 32), lambda: world.listen("b", 1, 256),
            lambda: world.attach("ed0", Kind.BROADCAST, 256), lambda: world.attach("ed0", -1), lambda: world.dump(1 << 32),
            lambda: world.dump(1, -1), lambda: world.dump_size(1 << 32), lambda: Message.request(RTM.GET, {}, seq=-1),
            lambda: Message.request(RTM.GET, {}, index=1 << 16), lambda: Message.request(RTM.GET, {}, flags=1 << 32),
            lambda: world.addresses(1 << 16), lambda: world.addresses(-1), lambda: socket.get_route("10.9.9.9", genmask=256),
            *(lambda name=name: socket.add_route("30.0.0.0/8", "10.0.0.2", **{name: 1 << 32}) for name in OTHERS - {"genmask"}),
            *(lambda name=name: socket.add_route("30.0.0.0/8", "10.0.0.2", **{name: -1}) for name in OTHERS),
        ],
        hoiskend.EINVAL: [
            lambda: world.attach("ed0", 3), lambda: world.attach("ed0", Kind.BROADCAST, 6, bytes(9)),
            lambda: socket.write(bytes(8247)), lambda: socket.write(b""), lambda: world.add_address("le0", "11.0.0.1/8", far=1),
            lambda: socket.write_as(System.OPENBSD, b""), lambda: socket.add_route("30.0.0.0/8", "10.0.0.2", genmask=34),
            lambda: socket.add_route("30.0.0.0/8", LinkAddress(bytes(20))), lambda: socket.add_route("30.0.0.0/8", LinkAddress(b"")),
            lambda: socket.add_route("30.0.0.0/8"),
        ],
        TypeError: [
            lambda: socket.write(92), lambda: socket.write("text"), lambda: world.attach(5, Kind.BROADCAST),
            lambda: world.line(7), lambda: world.line(None), lambda: world.listen("b", 1.5), lambda: world.listen("b", "1"),
            lambda: hoiskend.show("text"), lambda: hoiskend.convert(0, 1, 76),
            lambda: socket.add_route("30.0.0.0/8", "10.0.0.2", mut=1400), lambda: socket.lock_route("10.0.0.0/8", mtu="9"),
        ],
        ValueError: [
            lambda: LinkAddress.of("le0", bytes(30)), lambda: Message.request(RTM.GET, {RTA.NETMASK: 33}),
            lambda: hoiskend.convert(5, 0, bytes(76)), lambda: socket.get_route("10.0.0.1/8"),
            lambda: socket.add_route("30.0.0.0/8", LinkAddress(bytes([33, 18, *bytes(31)]))),
        ],
        MessageError: [
            lambda: Message(b""), lambda: Message(bytes(76)), lambda: Message.of(System.MACOS, bytes(92)),
            lambda: Message(bytes([0, 76, 4]) + bytes(73)).addresses, lambda: Message(bytes([0, 75, 3]) + bytes(72)),
        ],
        hoiskend.BadLine: [lambda: world.line("sing"), lambda: world.line("x" * 16_501), lambda: world.line(b"\xff")],
        hoiskend.EMSGSIZE: [lambda: socket.write(bytes(8193))],
    }
    before = world.routes()
    for kind, calls in refused.items():
        for at, call in enumerate(calls):
            sweep.claim(f"{kind.__name__} {at}", raises(kind, call))
    sweep.claim("nothing has changed", world.routes() == before)
    for name in ("10.0.0.256", "10.0.0", "", "10.0.0.1/33"):
        sweep.claim(f"the address {name!r}", raises(ValueError, lambda: world.add_address("le0", name), at_least=True))
        sweep.claim(f"the key {name!r}", raises(ValueError, lambda: world.route(name), at_least=True))
        sweep.claim(f"a request for {name!r}", raises(ValueError, lambda: socket.get_route(name), at_least=True))


def share_a_world(sweep):
    """Threads that share a world: each read has what its own call took, and nothing is lost."""
    world, _ = begun()
    heard = []

    def ask(seq):
        socket = world.listen(f"s{seq}", seq)
        socket.write(Message.request(RTM.GET, {RTA.DST: "10.9.9.9"}, seq=seq))
        heard.extend((seq, message.seq) for message in socket.read() if message.pid == seq)

    threads = [threading.Thread(target=ask, args=(seq,)) for seq in range(1, 50)]
    for thread in threads:
        thread.start()
    for thread in threads:
        thread.join()
    sweep.claim("threads share a world", sorted(heard) == [(seq, seq) for seq in range(1, 50)])


def misuse(sweep, examples):
    close_worlds(sweep, sweep.library())
    give_what_says_nothing(sweep)
    share_a_world(sweep)
