"""How much stack each call takes: no more than the header says that it has to find."""
import ctypes
import tempfile

from by_calls import steps_of
from calls import HOST, Library, World
from converted import Converts
from in_words import Shows, messages_of
from layouts import SYSTEMS
from libraries import library
from misuse import MOST_WRITE
from parts import BITS, Parts
from prototypes import Sources, constant
from there import There, routes_of

MOST_GIVEN = 8


def word(given):
    """A number, a bool or a pointer as the word that a call is given."""
    return int(given) if isinstance(given, int) else ctypes.cast(given, ctypes.c_void_p).value


class Painted(Library):
    """The library, each call of which is made on a painted stack; `wrong` is `deep` where its caller takes too much."""

    wrong = None

    def begin(self, painted, most):
        """Gives it the stack, of which calls are to take at most so many bytes."""
        self.stack, self.taken = ctypes.CDLL(str(painted)), dict.fromkeys(self.functions, 0)
        self.stack.on_stack.restype = ctypes.c_size_t
        ctypes.c_ulong.in_dll(self.stack, "stack_more").value = most if self.wrong == "deep" else 0

    def make(self, name, handle, *given):
        return self.on_stack(name, ctypes.byref(handle), *given)

    def show(self, *given):
        return self.on_stack("hk_show", *given)

    def convert(self, *given):
        return self.on_stack("hk_convert", *given)

    def header(self, *given):
        return self.on_stack("hk_message_header", *given)

    def address(self, *given):
        return self.on_stack("hk_message_address", *given)

    def on_stack(self, name, *given):
        function, depth = getattr(self.loaded, name), ctypes.c_ulong()
        words = (ctypes.c_size_t * MOST_GIVEN)(*map(word, given))
        answer = self.stack.on_stack(ctypes.cast(function, ctypes.c_void_p), words, ctypes.byref(depth))
        self.taken[name] = max(self.taken[name], depth.value)
        return function.restype(answer).value if function.restype else None


def tell(painted, example):
    """A world that is told an example by calls, and one that is told it by lines; and its messages in words, taken
    apart and in other layouts."""
    for tell_line in (World.told, World.line):
        world = World(painted)
        world.open()
        for line, _ in steps_of(example):
            tell_line(world, line)
        world.line(b"write a " + b"00" * MOST_WRITE)
        tell_what_is_there(world)
        world.close()
    shows, converts, parts = Shows(painted), Converts(painted), Parts(painted)
    for message in (*messages_of(example), bytes(MOST_WRITE)):
        shows.text(message)
        parts.header(message)
        for bit in BITS:
            parts.address(message, bit)
        for system in SYSTEMS:
            converts.answer("bsd44", system, message)


def tell_what_is_there(world):
    there = There(world)
    there.interfaces()
    there.sockets()
    for pair in (*routes_of(world), (0, HOST)):
        there.entry(*pair)


def take_little_stack(sweep, examples):
    painted, most = sweep.library(Painted), constant(Sources.of_today().header, "HK_STACK_BYTES")
    painted.begin(library("stack.c", tempfile.mkdtemp(dir=sweep.folder)), most)
    for example in examples:
        tell(painted, example)
    for name, taken in painted.taken.items():
        sweep.claim(f"{name} takes {taken} bytes of stack", 0 < taken <= most)


def jobs(examples):
    yield take_little_stack, list(examples.values())


def trials(examples):
    yield "deep", take_little_stack, [examples["one-get"]]
