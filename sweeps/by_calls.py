"""The examples by the library's calls: each gives its transcript, beside other worlds too, and with each allocation
refused in turn."""
import threading
from dataclasses import replace

from calls import NO_MEMORY, OK
from memory import asks_in_vain, takes_away
from misuse import START
from runs import answered_lines, answers

REFUSED = b"err %d\n" % NO_MEMORY
# Calls that take no memory, whatever comes of them.
TAKE_NONE = (b"read ", b"lost ", b"loopback ", b"close ", b"unaddr ", b"losing ")


def steps_of(example):
    """The answered lines of an example, with what is answered to each."""
    return list(zip(answered_lines(example.script), answers(example.transcript), strict=True))


def opened(library):
    world = library.world()
    return world if world.open() == OK else None


def tell_by_calls(sweep, example):
    """Each line by the call that has its command; and hk_text has the same text of it."""
    world = opened(sweep.library())
    told = [(world.told(line), world.given("hk_text")) for line, _ in steps_of(example)]
    world.close()
    sweep.claim(f"{example.name}: by calls", told == [(answer, answer) for _, answer in steps_of(example)])


def tell_by_lines(sweep, example):
    """A whole routesim: each line by hk_line, those without an answer too."""
    world, told = opened(sweep.library()), b""
    lines = example.script.split(b"\n")
    for line in lines if lines[-1] else lines[:-1]:
        code, text = world.line(line)
        sweep.claim(f"{example.name}: {line[:40]}: code", code_in(text) == code)
        told += text
    world.close()
    sweep.claim(f"{example.name}: by lines", told == example.transcript)


def code_in(text):
    """The code that a text of an answer says."""
    last = (text.splitlines() or [b""])[-1]
    return int(last[4:]) if last.startswith(b"err ") else 256 if last == b"bad" else 0


def interleave(sweep, one, other):
    """Two worlds, told one line in turn, each answer as if they were alone."""
    library = sweep.library()
    runs = [(opened(library), iter(steps_of(example)), []) for example in (one, other)]
    left = list(runs)
    while left:
        for run in list(left):
            world, steps, wrong = run
            step = next(steps, None)
            if step is None:
                world.close()
                left.remove(run)
            elif world.told(step[0]) != step[1]:
                wrong.append(step[0])
    sweep.claim(f"{one.name} beside {other.name}", not any(wrong for _, _, wrong in runs))
    sweep.claim(f"{one.name} beside {other.name}: all is freed", library.get("blocks") == 0)


THREADS = 8


def run_in_threads(sweep, examples):
    """Worlds in calls of several threads at the same time; and a world that goes from thread to thread."""
    library, wrong = sweep.library(), []

    def run(share):
        for example in share:
            world = opened(library)
            wrong.extend(example.name for line, answer in steps_of(example) if world.told(line) != answer)
            world.close()

    def run_all(shares):
        threads = [threading.Thread(target=run, args=(share,)) for share in shares]
        for thread in threads:
            thread.start()
        for thread in threads:
            thread.join()

    run_all([examples[at:] + examples[:at] for at in range(THREADS)])
    sweep.claim(f"{THREADS} threads: {sorted(set(wrong))}", not wrong and library.get("blocks") == 0)
    for example in examples[:THREADS]:
        world, told = opened(library), []
        for line, _ in steps_of(example):
            thread = threading.Thread(target=lambda: told.append(world.told(line)))
            thread.start()
            thread.join()
        world.close()
        sweep.claim(f"{example.name}: from thread to thread", told == [answer for _, answer in steps_of(example)])


def refused_in_turn(library, call, fault, first=1):
    """What the call gives with its k-th allocation refused, for each k from the first until none is; and then what it gives
    with none refused. How often memory was refused stands with each. A call that is carried out all the same isn't made
    again."""
    given, call_number = [], first
    while not given or given[-1][1]:
        before = library.get("refused")
        library.set(**{fault: call_number})
        got = call()
        library.set(**{fault: 0})
        given.append((got, library.get("refused") - before))
        call_number += 1
        if given[-1][1] and got not in (REFUSED, NO_MEMORY):
            break
    return given


def refuse_each(sweep, example, fault="refuse_at", first=1):
    """Each call of an example answers 55 where one of its allocations is refused, for each of these from the first, and made
    again it answers as it would have; so nobody heard of it, and the routes are as they were. Or it asks in vain, or takes a
    route away, and is carried out all the same."""
    library, refusals, wrong = sweep.library(), 0, []
    name, world = f"{example.name}: {fault} {first}", library.world()
    *refused, done = refused_in_turn(library, world.open, fault, first)
    sweep.claim(f"{name}: open", len(refused) > 0 and done == (OK, 0))
    for line, answer in steps_of(example):
        *refused, (got, times) = refused_in_turn(library, lambda: world.told(line), fault, first)
        refusals += len(refused)
        may_go_on = times == 0 or asks_in_vain(line, answer) or takes_away(line, answer)
        holds = got == answer and may_go_on and not (refused and line.startswith(TAKE_NONE))
        if not holds:
            wrong.append(line[:60])
    world.close()
    sweep.claim(f"{name}: {wrong}", not wrong and library.get("refused") >= refusals)
    sweep.claim(f"{name}: all is freed", library.get("blocks") == 0)


def look_without_memory(sweep):
    """A packet whose route is known, and each call that only looks, ask for no memory."""
    library = sweep.library()
    world = opened(library)
    for line in (*START, b"packet 10.9.9.9"):
        world.told(line)
    for line in (b"packet 10.9.9.9", b"packet 10.0.0.0", b"packet 20.0.0.1", b"lost a", b"dump ask", b"read a"):
        library.set(asked=0)
        told = world.told(line)
        asked = library.get("asked")
        # a clone for another address is the one that takes memory
        sweep.claim(f"{line}: {asked} allocations", told != b"" and (asked == 0) == (line != b"packet 10.0.0.0"))
    world.close()


def jobs(examples):
    each = list(examples.values())
    yield run_in_threads, each
    yield (look_without_memory,)
    for example, other in zip(each, each[1:] + each[:1]):
        yield tell_by_calls, example
        yield tell_by_lines, example
        yield interleave, example, other
        yield from ((refuse_each, example, fault) for fault in ("refuse_at", "refuse_from"))
    # what gives memory back asks for several blocks to do so, and isn't made again
    yield from ((refuse_each, examples["many-routes"], "refuse_at", first) for first in (2, 3))


def trials(examples):
    """What is wrong, with the heap, the library or the example, and the sweep that has to notice it."""
    example = examples["one-get"]
    other = replace(example, transcript=example.transcript.replace(b"ok\n", b"err 1\n", 1))
    yield "leaks", refuse_each, example
    yield "leaks", interleave, example, example
    yield "deaf", refuse_each, example
    yield "right", refuse_each, other
    yield "shares", interleave, example, example
    yield "right", tell_by_calls, other
    yield "right", tell_by_lines, other
    yield "right", interleave, example, other
    yield "right", run_in_threads, [other] * THREADS
