"""What scripts cost, in instructions that callgrind of valgrind counts: no contract says that a faster way is taken, and where one
is lost all is answered as before. Each kind's figure is that of costs.txt, or at most a tenth more. A program is compiled by LLVM or
by Rattle's own compiler, each of which has its figures; lines that are bad, which no faster way meets, tell which it was.

    sweeps/costs.py BY_LLVM BY_RATTLE        counts each kind of two programs, and writes costs.txt anew
"""
import os
import random
import re
import shutil
import subprocess
import sys
import tempfile
from functools import lru_cache
from pathlib import Path

TABLE = Path(__file__).resolve().with_name("costs.txt")
SLACK = 1.1
HEAD = ["if le0 broadcast 6 080020010203", "addr le0 9.0.0.1/8", "open a 100 any", "loopback a off"]
VIA = "via 9.0.0.2 flags 803"


def dotted(address):
    return ".".join(str(address >> shift & 255) for shift in (24, 16, 8, 0))


def additions(pairs):
    return [f"route a 1 add {dotted(key)}/{length} {VIA}" for key, length in pairs]


def deletions(pairs):
    return [f"route a 2 delete {dotted(key)}/{length}" for key, length in pairs]


def packets(addresses):
    return [f"packet {dotted(address)}" for address in addresses]


def networks(by_chance, count):
    """So many networks of the Internet's lengths, each with its key."""
    lengths = by_chance.choices((24, 22, 20, 19, 16), (60, 15, 10, 10, 5), k=count)
    pairs = {(by_chance.randrange(11 << 24, 224 << 24) >> 32 - length << 32 - length, length) for length in lengths}
    return sorted(pair for pair in pairs if pair[0] >> 24 != 127)


def bad_lines(by_chance):
    return ["hello"] * 20_000


def to_networks(by_chance):
    """Packets to networks: the index is asked, and has each."""
    pairs = networks(by_chance, 3_000)
    by_chance.shuffle(pairs)
    return additions(pairs) + packets(key | 1 for key, _ in by_chance.choices(pairs, k=6_000))


def to_the_world(by_chance):
    """Packets by a default route, away from routes of each length: few ranks are asked for."""
    pairs = [(64 << 24 | 1 << 32 - length, length) for length in range(3, 33)]
    beside = [(10 << 24 | host, 32) for host in range(100)]
    away = [160 << 24 | by_chance.getrandbits(24) for _ in range(6_000)]
    return [f"route a 1 add default {VIA}"] + additions(pairs + beside) + packets(away)


def within_one_network(by_chance):
    """Hosts of one network by chance: an addition begins near."""
    return additions((10 << 24 | 1 << 16 | host, 32) for host in by_chance.sample(range(1 << 16), 6_000))


def come_and_go(by_chance):
    """Hosts that come in order and go, oldest first: the index follows their number, and is whole at the end."""
    pairs = networks(by_chance, 200)
    hosts = [(20 << 24 | host, 32) for host in range(4_000)]
    return additions(pairs + hosts) + deletions(hosts) + packets(key | 1 for key, _ in by_chance.choices(pairs, k=2_000))


def an_address_comes_and_goes(by_chance):
    """An address of an interface that has a few: none of what is kept of them is made anew."""
    return [f"addr le0 10.{n}.0.1/16" for n in range(16)] + ["addr le0 10.99.0.1/16", "unaddr le0 10.99.0.1"] * 1_000


def an_only_address_comes_and_goes(by_chance):
    """The one address of an interface: those that were removed before it are not looked at again."""
    return ["if le1 broadcast 6 080020010204"] + ["addr le1 10.99.0.1/16", "unaddr le1 10.99.0.1"] * 1_000


def many_addresses(by_chance):
    """Addresses of an interface: one comparison tells of each whether it is the one that is added."""
    return [f"addr le0 10.{n >> 8}.{n & 255}.1/24" for n in range(2_000)]


def over_many_addresses(by_chance):
    """Routes over a gateway, on an interface of many addresses: it has no other end, and is not searched for one."""
    return [f"addr le0 10.{n}.0.1/16" for n in range(200)] + additions(networks(by_chance, 2_000))


def dumps(by_chance):
    return additions(networks(by_chance, 1_000)) + ["dump 1000000"] * 3


KINDS = (
    bad_lines,
    to_networks,
    to_the_world,
    within_one_network,
    come_and_go,
    an_address_comes_and_goes,
    an_only_address_comes_and_goes,
    many_addresses,
    over_many_addresses,
    dumps,
)


def script_of(kind):
    return HEAD + kind(random.Random(5))


def instructions(program, lines, environment):
    """How many instructions a run of a script of these lines takes, beyond one of none."""
    with tempfile.TemporaryDirectory() as folder:
        counts = []
        for name, given in ("none", []), ("all", lines):
            script = Path(folder, name)
            script.write_text("".join(f"{line}\n" for line in given))
            words = ["valgrind", "--tool=callgrind", "--callgrind-out-file=/dev/null", program, script]
            said = subprocess.run(words, env=environment, stdout=subprocess.DEVNULL, stderr=subprocess.PIPE, text=True).stderr
            counts.append(int(re.search(r"refs:\s+([\d,]+)", said)[1].replace(",", "")))
    return counts[1] - counts[0]


def for_each_line(program, kind, environment=os.environ):
    lines = script_of(kind)
    return instructions(program, lines, environment) // len(lines)


def table():
    """Of each kind what it takes by each compiler."""
    lines = (line.split() for line in TABLE.read_text().splitlines() if line[0] != "#")
    return {name: [int(count) for count in counts] for name, *counts in lines}


@lru_cache
def compiler_of(program):
    """Which of the compilers a program's bad lines look like."""
    count = for_each_line(program, bad_lines)
    return min(range(2), key=lambda which: abs(count - table()[bad_lines.__name__][which]))


def count_instructions(sweep, kind):
    """A kind's lines take no more instructions than they did, and a tenth."""
    known = table()[kind.__name__][compiler_of(sweep.program)]
    count = for_each_line(sweep.program, kind, os.environ | sweep.wrongs())
    sweep.claim(f"{kind.__name__}: {count:,} instructions a line, and it took {known:,}", count <= known * SLACK)


def can_count():
    return shutil.which("valgrind") is not None


def jobs():
    if can_count():
        yield from ((count_instructions, kind) for kind in KINDS)


if __name__ == "__main__":
    counts = "".join(f"{kind.__name__} {' '.join(str(for_each_line(each, kind)) for each in sys.argv[1:3])}\n" for kind in KINDS)
    TABLE.write_text("# Instructions for each line of a script of a kind, by LLVM and by Rattle's own compiler (costs.py).\n" + counts)
