"""Much of everything: a table, queues that are full, and rounds and messages that take no more memory."""
import random

from generator import MOST_SOCKETS, START, crowd
from messages import DST, GET, OLDADD, inet, message
from runs import DONE, answers

MOST_ADDRESSES = 65_535


def build_a_long_table(sweep):
    """As many routes as there may be addresses are added, in no order, and freed at the end."""
    lines = [f"addr le0 10.{n >> 16}.{n >> 8 & 255}.{n & 255}/32\n" for n in range(MOST_ADDRESSES + 1)]
    random.Random(1).shuffle(lines)
    ran = sweep.run(("if le0 broadcast 6 -\n" + "".join(lines)).encode())
    told = b"ok\n" * (MOST_ADDRESSES + 1) + b"err 28\n", DONE, b""
    sweep.claim("a long table", ran.told() == told and ran.left_nothing())


def add_a_thousand_routes(sweep):
    """A thousand routes are added in words, one after another; the dump's size is theirs."""
    lines = [f"route a {n} add 30.{n >> 8}.{n & 255}.0/24 via 10.0.0.2 flags 803\n" for n in range(1_000)]
    ran = sweep.run((START + "".join(lines) + "dump ask\n").encode())
    told = b"ok\n" * 1003 + b"size 127846\n", DONE, b""
    sweep.claim("a thousand routes", ran.told() == told and ran.left_nothing())


A_GET = message(GET, {DST: inet("10.9.9.9")}).hex()
OF_NO_TYPE = message(OLDADD, {DST: inet("10.9.9.9")}).hex()


# Sizes of the reply to `A_GET` and of the message that tells of a packet without a route, and what a queue holds.
REPLY, MISS, MOST_QUEUED = 116, 92, 8192


def fill_a_queue(sweep):
    """Of 10,000 replies a socket keeps those that fit, and counts the others, which a read doesn't change."""
    fit = MOST_QUEUED // REPLY
    lines = ["read a", *[f"write a {A_GET}"] * 10_000, "lost a", "read a", "lost a", "read a"]
    ran = sweep.run((START + "".join(f"{line}\n" for line in lines)).encode())
    got, lost = answers(ran.wrote)[4:], f"size {10_000 - fit}\n".encode()
    heard = got[10_001].splitlines() if len(got) == 10_004 else []
    holds = len(heard) == fit + 1 and len(set(heard)) == 2 and heard[-1] == b"ok"
    holds = holds and got[:10_000] == [b"ok\n"] * 10_000 and got[10_000:] == [lost, got[10_001], lost, b"ok\n"]
    sweep.claim("a full queue", holds and ran.status == DONE and ran.left_nothing())


def never_read(sweep):
    """64 sockets are never read: memory stands still, whether there are no messages, a thousand or 100,000; and each
    socket counts those that it lost."""
    sockets = [name for name, _ in crowd(MOST_SOCKETS - 1, "any")]
    start = START + "".join(line for _, line in crowd(MOST_SOCKETS - 1, "any")) + "read a\n"
    start += "".join(f"read {name}\n" for name in sockets)
    # of pairs of these messages, after the last pair that fits neither does
    pairs = MOST_QUEUED // (REPLY + MISS)
    assert MOST_QUEUED - pairs * (REPLY + MISS) < MISS
    took = []
    for messages in (0, 1_000, 100_000):
        lines = f"write a {A_GET}\npacket 20.0.0.1\n" * (messages // 2) + "".join(f"lost {name}\n" for name in sockets)
        ran = sweep.run((start + lines + "lost a\n").encode())
        lost = b"size %d\n" % max(0, messages - 2 * pairs)
        holds = answers(ran.wrote)[-MOST_SOCKETS:] == [lost] * MOST_SOCKETS and ran.status == DONE
        sweep.claim(f"64 sockets that are never read, {messages} messages", holds and ran.left_nothing())
        took.append(ran.counts["most_bytes"])
    sweep.claim("sockets that are never read take no more memory", took[0] > 0 and len(set(took)) == 1)


# Rounds of lines that leave the world as they found it.
ROUNDS = [
    f"write a {A_GET}\nread a\n",
    f"write a {OF_NO_TYPE}\nread a\n",
    f"write a {OF_NO_TYPE}\n",
    "if le0 broadcast 6 080020010203\n",
    "addr le0 10.0.0.1/8\naddr ed9 10.0.0.9/8\n",
    "open a 7 any\nwrite z 00\nread z\n",
    "open b 1 2\nclose b\n",
    "packet 11.0.0.1\nread a\n",
    "lost a\nlost z\n",
    "dump 100000\nflags 1 0\n",
    "route a 1 add 30.0.0.0/8 via 10.0.0.5\nroute a 2 delete 30.0.0.0/8\nread a\n",
    "route a 1 change 10.0.0.0/8 mtu 9\nroute a 2 lock 10.0.0.0/8 inits 1 locks 1\nread a\n",
    "redirect 10.0.0.9 11.0.0.1 10.0.0.1\nread a\n",
    "unaddr le0 10.0.0.7\nunaddr ed9 10.0.0.9\n",
    "losing 11.0.0.1\nlosing 10.0.0.9\n",
    "route a 1 add default via 10.0.0.2 flags 803\nredirect 20.0.0.1 10.0.0.3 10.0.0.2\nlosing 20.0.0.1\n"
    "route a 2 delete default\n",
]


def take_no_more_memory(sweep):
    """A thousand rounds take no more memory at once than ten."""
    for lines in ROUNDS:
        few, many = (sweep.run((START + lines * rounds).encode()) for rounds in (10, 1_000))
        most = few.counts["most_bytes"]
        goes_on = len(answers(many.wrote)) > len(answers(few.wrote))
        holds = 0 < most == many.counts["most_bytes"] and few.left_nothing() and many.left_nothing()
        sweep.claim(f"rounds of {lines.splitlines()[0][:40]}", holds and goes_on)
