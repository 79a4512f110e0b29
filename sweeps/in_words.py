"""Messages in words, by hk_show: those of the examples, and any bytes; into each room; with each allocation refused."""
import ctypes
import re
import threading

from by_calls import refused_in_turn
from calls import LEFT_OUT, NO_MEMORY, OK, Room
from callers import PAGE, TOP
from messages import any_shown
from misuse import FILLED, begun, state
from prototypes import Sources
from reading import reading

FORMATS = TOP / "docs" / "FORMATS.md"
# The size that was there before a call, which no text has.
UNTOLD = (1 << 63) + 1
MOST_SHOWN = 1 << 22


class Shows:
    """hk_show, with a message and a room behind which nobody may read or write."""

    def __init__(self, library, most=MOST_SHOWN):
        self.library, self.given, self.out = library, Room(most), Room(most)

    def into(self, message, n):
        """What is answered, the size that is told, and the room of n bytes, which was filled before."""
        size, room = ctypes.c_size_t(UNTOLD), self.out.put(bytes([FILLED]) * n)
        code = self.library.show(self.given.put(message), len(message), room, n, ctypes.byref(size))
        return code, size.value, self.out.last(n)

    def text(self, message):
        """The whole text, once its size is known."""
        _, n, _ = self.into(message, 0)
        code, size, text = self.into(message, n)
        return text if (code, size) == (OK, n) else None


def messages_of(example):
    return [bytes.fromhex(digits) for digits in re.findall(r"^msg (\w*)$", example.transcript.decode(), re.M)]


def show_each_message(sweep, examples):
    shows = Shows(sweep.library())
    for message in {message for example in examples for message in messages_of(example)}:
        sweep.claim(f"{message.hex()} in words", shows.text(message) == reading(message).encode())


def show_any_messages(sweep, seed):
    """Messages with anything in them, from a fixed seed."""
    shows = Shows(sweep.library())
    for message in any_shown(seed):
        sweep.claim(f"{message[:92].hex()} in words", shows.text(message) == reading(message).encode())


def shown_texts():
    """The message in words that the pages show, by the page."""
    header = re.search(r"The reply to a GET is\n \*\n((?: \*     .*\n)+)", Sources.of_today().header)
    manual = re.search(r"The reply to a GET is\n\.Bd [^\n]*\n(.*?)\.Ed", PAGE.read_text(), re.S)
    formats = re.search(r"### A message in words\n.*?```\n(.*?)```", FORMATS.read_text(), re.S)
    yield "the header", re.sub(r"^ \*     ", "", header[1], flags=re.M) if header else ""
    yield "the manual page", manual[1] if manual else ""
    yield "FORMATS", formats[1] if formats else ""


def show_what_pages_show(sweep, example):
    """The pages show the example's last message."""
    text = Shows(sweep.library()).text(messages_of(example)[-1])
    for where, shown in shown_texts():
        sweep.claim(f"the message in words that {where} shows", text == shown.encode() != b"")


def show_into_each_room(sweep, example):
    """A text is copied where all of it fits, and nothing behind it is touched; else nothing is. Its size is told."""
    library = sweep.library()
    shows, world = Shows(library), begun(library)
    before = state(world)
    for message in (*messages_of(example), b"", b"\0\4\3\14"):
        whole = shows.text(message) or b""
        for n in range(len(whole) + 3):
            fits = n >= len(whole)
            room = (whole if fits else b"") + bytes([FILLED]) * (n - len(whole) if fits else n)
            holds = shows.into(message, n) == (OK if fits else LEFT_OUT, len(whole), room)
            sweep.claim(f"{message.hex()} in words into {n} bytes", holds and whole != b"")
    sweep.claim("a world beside it stays", state(world) == before)
    world.close()
    sweep.claim("messages in words leave nothing", library.get("blocks") == 0)


def show_any_bytes(sweep):
    """Bytes that are no message are shown, whatever their number."""
    shows = Shows(sweep.library())
    for n in (*range(200), 8191, 8192, 8193, 65_535, 65_536, 1 << 20):
        wanted = b"no message: " + b"00" * n + b"\n the length is wrong\n"
        sweep.claim(f"{n} bytes that are no message", shows.text(bytes(n)) == wanted)


def refuse_each_allocation(sweep, example, fault):
    """Where one of its allocations is refused, and for each of these, nothing is written and no size told; called again
    it shows the message. Nothing is left."""
    library = sweep.library()
    shows = Shows(library)
    for message in (*messages_of(example), b"", bytes(8192)):
        whole = shows.text(message)
        refused = NO_MEMORY, UNTOLD, bytes([FILLED]) * len(whole)

        def told():
            got = shows.into(message, len(whole))
            return NO_MEMORY if got == refused else got

        *refusals, done = refused_in_turn(library, told, fault)
        holds = refusals and all(got == NO_MEMORY for got, _ in refusals) and done == ((OK, len(whole), whole), 0)
        sweep.claim(f"{message[:92].hex()} in words: {fault}", holds)
    sweep.claim(f"in words: {fault}: all is freed", library.get("blocks") == 0)


def show_in_threads(sweep, example):
    """Threads show messages at the same time."""
    library, wrong = sweep.library(), []
    wanted = {message: Shows(library).text(message) for message in messages_of(example)}

    def show_all():
        shows = Shows(library)
        wrong.extend(message for _ in range(200) for message in wanted if shows.text(message) != wanted[message])

    threads = [threading.Thread(target=show_all) for _ in range(8)]
    for thread in threads:
        thread.start()
    for thread in threads:
        thread.join()
    sweep.claim("threads show messages", not wrong and None not in wanted.values() and library.get("blocks") == 0)


def trials(examples):
    """What is wrong with the heap or the library, and the sweep that has to notice it."""
    example = examples["one-get"]
    yield "scribbles", show_into_each_room, example
    yield "welcomes", show_into_each_room, example
    yield "leaks", refuse_each_allocation, example, "refuse_at"
    yield "deaf", refuse_each_allocation, example, "refuse_at"
    yield "cuts", show_each_message, [example]
    yield "cuts", show_what_pages_show, example
    yield "cuts", show_any_bytes
    yield "cuts", show_any_messages, 0


def jobs(examples):
    example = examples["one-get"]
    yield show_each_message, [*examples.values()]
    yield (show_any_bytes,)
    yield from ((show_any_messages, seed) for seed in range(4))
    yield from ((job, example) for job in (show_what_pages_show, show_into_each_room, show_in_threads))
    yield from ((refuse_each_allocation, example, fault) for fault in ("refuse_at", "refuse_from"))
