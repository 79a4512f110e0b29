"""A trial of the sweeps themselves: the program is made wrong, and a sweep that looks for that has to fail."""
import costs
import generated
import leaks
import memory
import sizes
import streams
import words
from generator import MOST_SOCKETS, SEEDS, START
from messages import OLDADD
from runs import DONE, Example, Sweep


# What makes no program wrong.
RIGHT = "right"


def example_of(*turns):
    """A script of these lines behind the start, with their answers, named for the last one."""
    script = START + "".join(f"{line}\n" for line, _ in turns)
    transcript = "ok\n" * START.count("\n") + "".join(f"{answer}\n" for _, answer in turns)
    return Example(turns[-1][0][:60], script.encode(), transcript.encode(), DONE)


CLONED = ("packet 10.9.9.9", "via 10.9.9.9 - 10.0.0.1 1 00000005")
# Commands that take no memory, by what they are and what they meet.
TAKE_NONE = [
    example_of(CLONED, CLONED),
    *map(example_of, [
        ("packet 20.0.0.1", "err 65"),
        ("write a -", "err 22"),
        ("write a 00", "err 22"),
        ("write a " + "00" * 76, "err 22"),
        (f"write a {sizes.A_GET}", "ok"),
        (f"write a {sizes.OF_NO_TYPE}", "err 45"),
        ("route a 1 add 10.0.0.0/8 via 10.0.0.2", "err 17"),
        ("route a 1 add 20.0.0.0/8 via 30.0.0.2", "err 51"),
        ("route a 1 add 20.0.0.0/8", "err 22"),
        ("route a 1 change 20.0.0.0/8 mtu 9", "err 3"),
        ("route a 1 change 10.0.0.0/9 mtu 9", "err 59"),
        ("route a 1 delete 20.0.0.0/8", "err 3"),
        ("route a 1 delete 10.0.0.0/8", "ok"),
        ("route a 1 lock 10.0.0.0/8 inits 1 locks 1", "ok"),
        ("lost a", "size 0"),
        ("lost z", "err 9"),
        ("losing 10.9.9.9", "ok"),
        ("losing 20.0.0.1", "err 65"),
        ("unaddr le0 10.0.0.1", "ok"),
        ("unaddr le0 10.0.0.7", "err 49"),
    ]),
]


def trials(examples, tests):
    """What is wrong, the sweep that has to notice it, and what that sweep is given."""
    empty, one_get, bad = (examples[name] for name in ("empty-script", "one-get", "bad-lines"))
    yield "deaf", memory.refuse_each_allocation, empty
    yield "deaf", memory.refuse_each_allocation, one_get
    yield "deaf", memory.refuse_each_allocation, example_of(("route a 1 delete 10.0.0.0/8", "ok"))
    yield "deaf", streams.fail_each_read, empty
    yield "deaf", streams.fail_each_write, one_get, "fail_writes"
    yield "deaf", streams.fail_each_write, one_get, "empty_writes"
    yield "blind", memory.refuse_each_allocation, empty
    yield "blind", streams.fail_each_read, empty
    yield "blind", streams.fail_each_write, one_get, "fail_writes"
    yield "blind", streams.read_in_pieces, empty
    yield "confused", memory.refuse_each_allocation, one_get
    yield from (("greedy", memory.refuse_each_allocation, takes_none) for takes_none in TAKE_NONE)
    yield "classful", generated.run_classes
    yield "crowded", generated.run_lengths, OLDADD, 7500, MOST_SOCKETS - 1
    yield "crowded", generated.run_heard_by_all, OLDADD
    yield "leaks", streams.read_in_pieces, one_get
    yield "leaks", generated.run_seed, SEEDS[0]
    yield "hoards", sizes.take_no_more_memory
    yield "too-soon", generated.run_names_and_links
    yield "too-soon", generated.run_each_form
    yield "refuses-late", sizes.build_a_long_table
    yield "unlost", sizes.fill_a_queue
    yield "unlost", sizes.never_read
    yield "unlost", generated.run_queues, SEEDS[0]
    yield "swells", sizes.never_read
    yield "swells", sizes.take_no_more_memory
    yield "narrow", streams.read_in_pieces, one_get
    yield "wide", streams.read_in_pieces, one_get
    yield "eager", streams.read_in_pieces, empty
    yield "forgets", streams.read_in_pieces, one_get
    yield "forgets", generated.run_seed, SEEDS[0]
    yield "stops", generated.run_seed, SEEDS[0]
    yield "stops", streams.read_a_long_script
    yield "hasty", streams.fail_each_read, empty
    yield "quits", generated.run_seed, SEEDS[0]
    yield "lies", generated.run_seed, SEEDS[0]
    yield "lies", generated.run_fronts
    yield "lies", streams.read_in_pieces, bad
    yield "late", streams.answer_each_line_at_once, one_get
    if costs.can_count():
        yield "sluggish", costs.count_instructions, costs.within_one_network
    yield "deaf", words.refuse_memory_of_words, words.ROUTESIM
    yield "deaf", words.read_a_file, one_get
    yield "blind", words.refuse_memory_of_words, words.ROUTESIM
    yield "confused", words.refuse_memory_of_words, words.ROUTESIM
    yield "leaks", words.read_words, words.ROUTESIM
    yield "mumbles", words.read_words, words.ROUTESIM
    yield "mumbles", streams.fail_each_read, one_get
    yield "hasty", words.read_a_file, one_get
    yield from (("leaks", leaks.run_tests, each) for each in tests if each.name == "radix_nodes_tests")


class Wrong(Sweep):
    """The program, made wrong."""

    def __init__(self, sweep, wrongs, wrong):
        super().__init__(sweep.program, [wrongs, *sweep.libraries], sweep.folder)
        self.wrong = wrong

    def wrongs(self):
        # whose own instructions would count too
        return {} if self.wrong == RIGHT else {"LD_PRELOAD": str(self.libraries[0]), "WRONG": self.wrong}

    def environment(self, **faults):
        return super().environment(wrong=self.wrong, **faults)


def run_trial(sweep, wrongs, wrong, job, *given):
    """The sweep fails, where the program is wrong; and doesn't, where only the library stands before it."""
    tried = Wrong(sweep, wrongs, wrong)
    job(tried, *given)
    sweep.claim(f"trial of {job.__name__}: {wrong}", (wrong == RIGHT) != bool(tried.failed) and tried.claims() > 0)


def jobs_of(wrongs, tried):
    """What is wrong, each with its sweep; and each sweep where nothing is."""
    yield from ((run_trial, wrongs, *each) for each in tried)
    yield from ((run_trial, wrongs, RIGHT, *each) for each in dict.fromkeys(tuple(each) for _, *each in tried))


def jobs(wrongs, examples, tests):
    yield from jobs_of(wrongs, [*trials(examples, tests)])
