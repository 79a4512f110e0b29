"""Hoiskend's first script by calls: it prints what `routesim` prints of it."""
from hoiskend import Kind, World


def print_messages(socket):
    for message in socket.read():
        print("msg", bytes(message).hex())
    print("ok")


with World() as world:
    world.attach("le0", Kind.BROADCAST, 6, bytes.fromhex("080020010203"))
    print("ok")
    a = world.listen("a", pid=100)
    print("ok")
    world.add_address("le0", "10.0.0.1/8", cloning=True)
    print("ok")
    print_messages(a)
    a.get_route("10.9.9.9", seq=1)
    print("ok")
    print_messages(a)
