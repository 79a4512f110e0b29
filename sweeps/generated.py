"""Sweeps of scripts that are made: with ample memory no line is answered 55 and no fault is answered, and the pieces in
which the bytes come change nothing."""
import random

from generator import MOST_MESSAGE, MOST_SOCKETS, MOST_WRITE, SEEDS, all_classes, all_lengths, all_names_and_links
from generator import all_prefixes, any_script, cut_whole, cuts_of, each_form, fronts, heard_by_all, queue_script
from grammar import LINES, any_line, is_line
from messages import GET, HEADER, OLDADD, WHOLE, message_size, sized
from runs import BAD_LINE, DONE, FAULT_TEXT, answered_lines, answers

PIECES = (1, 7, 4096)
LENGTHS_A_SCRIPT = 300


def is_answered(script, ran):
    """Each line was answered, and `bad` is what the grammar doesn't have and nothing else; none for want of memory."""
    lines, got = answered_lines(script), answers(ran.wrote)
    bad = [not is_line(line) for line in lines]
    status = BAD_LINE if any(bad) else DONE
    is_bad = [answer == b"bad\n" for answer in got]
    return is_bad == bad and b"err 55\n" not in got and (ran.status, ran.error) == (status, FAULT_TEXT[status])


def claim_made(sweep, what, script):
    """What a script's runs in pieces have in common, and what holds of each."""
    runs = [sweep.run(script, piece=piece) for piece in PIECES]
    sweep.claim(f"{what}: each line is answered", is_answered(script, runs[0]))
    sweep.claim(f"{what}: pieces agree", len({ran.told() for ran in runs}) == 1)
    sweep.claim(f"{what}: all is freed", all(ran.left_nothing() for ran in runs))


def run_seed(sweep, seed):
    claim_made(sweep, f"seed {seed}", any_script(seed))


def run_refused(sweep, seed):
    """A refused line leaves the table as it was, but a packet, which is counted before its route refuses it."""
    lines, dump = answered_lines(any_script(seed)), b"dump 4294967295\n"
    got = answers(sweep.run(dump + b"".join(line + b"\n" + dump for line in lines)).wrote)
    dumps, told = got[::2], got[1::2]
    refused = [at for at, answer in enumerate(told) if answer[:3] == b"err" and lines[at][:6] != b"packet"]
    holds = len(told) == len(lines) and len(set(dumps)) > 1 and all(dumps[at] == dumps[at + 1] for at in refused)
    sweep.claim(f"seed {seed}: refused lines change no route", bool(refused) and holds)


def run_queues(sweep, seed):
    """What a socket holds and has lost is told by what it heard: a script in which each socket is read behind each line
    shows all that is heard, and the same lines with few reads show what is kept of it."""
    ids, sparse = queue_script(seed)
    lines = [line for line in sparse if line.split(b" ")[0] not in (b"read", b"lost")]
    every = b"".join(b"%s\n" % line for each in lines for line in (each, *(b"read %s" % name for name in ids)))
    got = answers(sweep.run(every).wrote)
    steps = iter([got[at : at + 1 + len(ids)] for at in range(0, len(got), 1 + len(ids))])
    queues, losses, told = {name: [] for name in ids}, dict.fromkeys(ids, 0), []
    for line in sparse:
        command, name = line.split(b" ")[:2]
        if command == b"lost":
            told.append(b"size %d\n" % losses[name])
        elif command == b"read":
            told.append(b"".join(queues[name]) + b"ok\n")
            queues[name] = []
        else:
            answer, *heard = next(steps)
            told.append(answer)
            for name, messages in zip(ids, heard):
                for message in messages.splitlines(keepends=True)[:-1]:
                    held = sum(map(message_size, queues[name]))
                    fits = held + message_size(message) <= MOST_MESSAGE
                    queues[name] += [message] if fits else []
                    losses[name] += not fits
    ran = sweep.run(b"".join(line + b"\n" for line in sparse))
    holds = ran.told() == (b"".join(told), DONE, FAULT_TEXT[DONE]) and ran.left_nothing()
    sweep.claim(f"seed {seed}: queues and losses", holds and any(losses.values()))


def run_each_form(sweep):
    claim_made(sweep, "each form", each_form())


def run_prefixes(sweep):
    claim_made(sweep, "each prefix", all_prefixes())


def run_names_and_links(sweep):
    for size in range(9):
        claim_made(sweep, f"names with {size} bytes of link-layer address", all_names_and_links(size))


def run_cuts(sweep):
    """A cut that has no whole header, or says another length than it has, is refused 22 and heard by nobody."""
    for name, text in WHOLE.items():
        script, cuts = cut_whole(text), cuts_of(text)
        claim_made(sweep, f"{name}, cut to each length", script)
        heard = answers(sweep.run(script).wrote)[-2 * len(cuts) :]
        pairs = zip(cuts, zip(heard[::2], heard[1::2]))
        no_message = {pair for cut, pair in pairs if len(cut) < HEADER or cut != sized(cut)}
        holds = len(heard) == 2 * len(cuts) and no_message == {(b"err 22\n", b"ok\n")}
        sweep.claim(f"{name}: a cut that is no message is heard by nobody", holds)


def run_fronts(sweep):
    """Each front of a line of each form is a line only where the grammar has it."""
    rng = random.Random(0)
    for template in LINES:
        claim_made(sweep, f"fronts of {template[:30]}", fronts(any_line(rng, template, beyond=0)[:400]))


def claim_told(sweep, what, script, transcript, pieces=PIECES[-1:]):
    """What is written is the transcript, which is known."""
    for piece in pieces:
        ran = sweep.run(script, piece=piece)
        holds = ran.told() == (transcript, DONE, FAULT_TEXT[DONE]) and ran.left_nothing()
        sweep.claim(f"{what}, pieces of {piece}", holds)


def run_lengths(sweep, kind, first, others=0):
    """Writes of each length from the first on, beside so many sockets that hear nothing."""
    pid = (0, 2**32 - 1)[first // LENGTHS_A_SCRIPT % 2]
    sizes = range(first, min(first + LENGTHS_A_SCRIPT, MOST_WRITE + 1))
    what = f"type {kind}, lengths from {first}, {others} sockets beside"
    claim_told(sweep, what, *all_lengths(kind, sizes, pid, others), PIECES if first == others == 0 else PIECES[-1:])


def run_heard_by_all(sweep, kind):
    claim_told(sweep, f"type {kind}, heard by {MOST_SOCKETS} sockets", *heard_by_all(kind))


def run_classes(sweep):
    claim_told(sweep, "addresses that begin with each byte", *all_classes())


def jobs():
    """The sweeps of this module, in parts that can run side by side."""
    yield from ((job, seed) for job in (run_seed, run_refused, run_queues) for seed in SEEDS)
    for kind in (GET, OLDADD):
        yield run_heard_by_all, kind
        for others in (0, MOST_SOCKETS - 1):
            yield from ((run_lengths, kind, first, others) for first in range(0, MOST_WRITE + 1, LENGTHS_A_SCRIPT))
    yield from ((job,) for job in (run_classes, run_each_form, run_prefixes, run_names_and_links, run_cuts, run_fronts))
