"""Memory that is refused, that is left at the end, and that grows without need."""
from bisect import bisect_left

from messages import ADD, CHANGE, CLONING, DELETE, best_of, is_whole, number_of, routes_in, text_of
from runs import FAULT_TEXT, NO_MEMORY, answered_lines, answers

# Commands that take no memory where they are refused with one of these errnos, and such as never take any.
TAKES_NONE = {b"if": {17, 28}, b"addr": {6, 22, 28, 48}, b"open": {17, 24}}
NEVER_TAKE = {b"read", b"lost", b"loopback", b"close", b"unaddr", b"losing"}
ALL_ROUTES = b"dump 4294967295"


def tables_before(sweep, script):
    """The routes that are there before each answered line, by its place, where it is a packet."""
    lines, script = answered_lines(script), b""
    for line in lines:
        script += (ALL_ROUTES + b"\n" if line.startswith(b"packet ") else b"") + line + b"\n"
    got, tables = iter(answers(sweep.run(script).wrote)), {}
    for at, line in enumerate(lines):
        if line.startswith(b"packet "):
            tables[at] = routes_in(next(got))
        next(got)
    return tables


def clones(line, routes):
    """Whether the route of a packet is there and clones."""
    best = best_of(number_of(line.split(b" ")[1].decode()), routes)
    return best is not None and bool(best.flags & CLONING)


def is_request(line, kinds):
    """Whether a write or a `route` line is a request of one of these types, by their numbers and words."""
    words = line.split(b" ")
    if words[0] == b"route":
        return words[3] in kinds
    text = text_of(words[2]) if words[0] == b"write" else b""
    return is_whole(text) and text[3] in kinds


def makes_or_changes(line):
    """Whether a write or a `route` line is an ADD or a CHANGE."""
    return is_request(line, (ADD, CHANGE, b"add", b"change"))


def takes_away(line, answer):
    """Whether a line may take a route away. What is kept beside the routes may then give memory back; where that is refused,
    it keeps the memory, and all is as it would have been."""
    return answer == b"ok\n" and (line.startswith((b"unaddr ", b"losing ")) or is_request(line, (DELETE, b"delete")))


def may_want_memory(line, answer, routes):
    """Whether the line that is answered so where there is memory, and meets these routes, may answer 55 where there is
    none."""
    command = line.split(b" ")[0]
    refusals = {b"err %d\n" % errno for errno in TAKES_NONE.get(command, ())}
    if answer == b"bad\n" or answer in refusals or command in NEVER_TAKE or line.endswith(b" ask"):
        return False
    if command == b"packet":
        return clones(line, routes)
    return command not in (b"write", b"route") or (answer == b"ok\n" and makes_or_changes(line))


def asks_in_vain(line, answer):
    """Whether a line is an ADD or a CHANGE that is refused: it asks for memory before it finds that it needs none."""
    return answer.startswith(b"err") and makes_or_changes(line)


def line_of(sweep, script, call):
    """The answered line in which the allocation of this number comes, by its place; -1 where it comes before all."""
    lines = [line + b"\n" for line in answered_lines(script)]

    def made(count):
        return sweep.run(b"".join(lines[:count])).counts["allocations"]

    return bisect_left(range(len(lines)), call, key=made) - 1


def lines_refused(script, transcript, ran):
    """The lines that a run answered 55, by their places, or None where it did not answer each line."""
    got = answers(ran.wrote)
    if len(got) != len(answers(transcript)):
        return None
    return [at for at, answer in enumerate(got) if answer == b"err 55\n"]


def is_without(sweep, example, ran, refused):
    """Whether the run told what it tells of the script without the lines that were refused."""
    lines, got = answered_lines(example.script), answers(ran.wrote)
    kept = [at for at in range(len(lines)) if at not in refused]
    rest = sweep.run(b"".join(lines[at] + b"\n" for at in kept))
    return rest.told() == (b"".join(got[at] for at in kept), ran.status, ran.error)


def is_refused_well(sweep, example, ran, fault, call, tables):
    """Nothing was written and the status says why; or all is as it is with memory, where the first line that got none asked
    for it in vain, or took a route away; or lines were answered 55, one that may be where memory was refused once, and all
    else is as it is without them."""
    if not ran.left_nothing():
        return False
    if ran.told() == (b"", NO_MEMORY, FAULT_TEXT[NO_MEMORY]):
        return True
    lines, plain = answered_lines(example.script), answers(example.transcript)
    if ran.told() == example.told():
        at = line_of(sweep, example.script, call)
        return at >= 0 and (asks_in_vain(lines[at], plain[at]) or takes_away(lines[at], plain[at]))
    refused = lines_refused(example.script, example.transcript, ran)
    if fault == "refuse_alloc" and refused is not None:
        may = [may_want_memory(lines[at], plain[at], tables.get(at)) for at in refused]
        refused = refused if may == [True] else None
    return bool(refused) and is_without(sweep, example, ran, refused)


def refuse_each_allocation(sweep, example, fault="refuse_alloc"):
    """The allocation k is refused (or k and all later ones), for each k that the run has; each of them came."""
    calls, tables = sweep.run(example.script).counts["allocations"], tables_before(sweep, example.script)
    for call in range(1, calls + 1):
        ran = sweep.run(example.script, **{fault: call})
        met = ran.counts["faults"] == 1 if fault == "refuse_alloc" else ran.counts["faults"] >= 1
        sweep.claim(f"{example.name}: {fault} {call}", met and is_refused_well(sweep, example, ran, fault, call, tables))
    beyond = sweep.run(example.script, **{fault: calls + 1})
    told = beyond.told() == example.told() and beyond.counts["faults"] == 0
    sweep.claim(f"{example.name}: {fault} comes, and ends at the last allocation", calls > 0 and told)
