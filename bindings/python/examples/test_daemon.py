"""The test of a routing daemon, as its author would write it: Hoiskend is the kernel. The daemon's requests are answered,
a witness hears what any process would, a queue that nobody reads runs full, and memory runs out where the test wants it to.

`pytest test_daemon.py` runs it, and so does `python3 test_daemon.py`.
"""
from contextlib import contextmanager
from ipaddress import IPv4Address, IPv4Network

from hoiskend import EEXIST, ENETUNREACH, ENOBUFS, RTA, RTF, RTM, Errno, Kind, Message, World

QUEUE_BYTES = 8192
WANTED = RTF.UP | RTF.GATEWAY | RTF.STATIC


class Daemon:
    """Keeps routes in a kernel, which it reaches by a socket: by its `write` and its `read`."""

    def __init__(self, socket):
        self.socket, self.seq, self.confirmed = socket, 0, 0

    def want_route(self, network, gateway):
        """Asks for a route. A kernel without memory is asked once more; a route that is there already is as good."""
        self.seq += 1
        addresses = {RTA.DST: network.network_address, RTA.GATEWAY: gateway, RTA.NETMASK: network.prefixlen}
        add = Message.request(RTM.ADD, addresses, flags=WANTED, seq=self.seq)
        try:
            self.socket.write(add)
        except ENOBUFS:
            self.socket.write(add)
        except EEXIST:
            pass

    def hear(self):
        """Counts the routes that the kernel says were added, by whomever."""
        self.confirmed += sum(message.kind == RTM.ADD and not message.errno for message in self.socket.read())


GATEWAY = IPv4Address("10.0.0.254")


def network(third):
    return IPv4Network((f"172.16.{third}.0", 24))


@contextmanager
def kernel():
    """The smallest world: one interface with one address, the daemon's socket, and a witness that hears all."""
    with World() as world:
        world.attach("le0", Kind.BROADCAST, 6, bytes.fromhex("080020010203"))
        world.add_address("le0", "10.0.0.1/8", cloning=True)
        yield world, world.listen("rd", pid=88), world.listen("witness", pid=101)


def test_requests_are_answered():
    with kernel() as (world, socket, witness):
        daemon = Daemon(socket)
        daemon.want_route(network(1), GATEWAY)
        daemon.hear()
        assert daemon.confirmed == 1

        # a packet takes the route
        route = world.packet("172.16.1.9")
        assert (route.network, route.gateway, route.index) == (network(1), GATEWAY, 1)
        assert route.flags == WANTED

        # the witness hears the reply, with the daemon's pid and seq
        (heard,) = witness.read()
        assert (heard.kind, heard.pid, heard.seq, heard.flags) == (RTM.ADD, 88, 1, WANTED | RTF.DONE)
        assert heard.addresses == {
            RTA.DST: IPv4Address("172.16.1.0"), RTA.GATEWAY: GATEWAY, RTA.NETMASK: 24,
        }


def test_what_is_there_is_no_fault():
    with kernel() as (_, socket, _):
        daemon = Daemon(socket)
        for _ in range(2):
            daemon.want_route(network(1), GATEWAY)


def test_a_gateway_out_of_reach():
    with kernel() as (_, socket, witness):
        try:
            Daemon(socket).want_route(network(2), IPv4Address("192.168.0.1"))
        except ENETUNREACH as refused:
            assert refused.errno == 51
        else:
            raise AssertionError("it was not refused")
        (heard,) = witness.read()
        assert Errno(heard.errno) is Errno.ENETUNREACH


def test_a_full_queue_loses():
    """The daemon doesn't read, and loses what the witness, who does, hears; after that it reads the table."""
    with kernel() as (world, socket, witness):
        daemon, heard = Daemon(socket), []
        for third in range(100):
            daemon.want_route(network(third), GATEWAY)
            heard += witness.read()
        assert (len(heard), witness.lost()) == (100, 0)
        daemon.hear()
        assert daemon.confirmed == QUEUE_BYTES // len(heard[0])
        assert socket.lost() == 100 - daemon.confirmed
        assert len(world.routes(RTF.STATIC)) == 100


class WithoutMemory:
    """A socket of a kernel that has no memory for the first request."""

    def __init__(self, socket):
        self.socket, self.refused = socket, 0

    def write(self, message):
        if not self.refused:
            self.refused = 1
            raise ENOBUFS
        self.socket.write(message)


def test_memory_runs_out():
    with kernel() as (world, socket, _):
        without = WithoutMemory(socket)
        Daemon(without).want_route(network(1), GATEWAY)
        assert without.refused and world.packet("172.16.1.9").network == network(1)


if __name__ == "__main__":
    for name, test in list(globals().items()):
        if name.startswith("test_"):
            test()
    print("the daemon's test passes")
