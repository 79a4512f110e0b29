"""The package for Python over the shared object, tried from within: each example by its calls, with each allocation
refused in turn, messages taken apart and made, and calls as they aren't meant.

    HOISKEND_LIB=.. PYTHONPATH=bindings/python python3 in_python.py WRONG WHAT [EXAMPLE..]

WRONG is what makes the heap wrong, or `right`; the heap of heap.c was loaded before. WHAT is `examples`, `threads`,
`messages`, `misuse` or `documentation`. The last line is 'N passed, N failed'.
"""
import doctest
import importlib
import pkgutil
import sys
from pathlib import Path

sys.dont_write_bytecode = True
import by_calls
from package_messages import take_apart
from package_misuse import misuse
from package_worlds import Library
from runs import Example, Sweep

import hoiskend

TOP = Path(__file__).resolve().parents[1]
EXAMPLES, README = TOP / "examples", TOP / "bindings" / "python" / "README.md"


def run_examples(sweep, examples):
    for example, other in zip(examples, examples[1:] + examples[:1]):
        by_calls.tell_by_calls(sweep, example)
        by_calls.tell_by_lines(sweep, example)
        by_calls.interleave(sweep, example, other)
        for fault in ("refuse_at", "refuse_from"):
            by_calls.refuse_each(sweep, example, fault)


def run_threads(sweep, examples):
    by_calls.run_in_threads(sweep, examples)
    by_calls.look_without_memory(sweep)


def run_documentation(sweep, examples):
    """What the package's documentation shows comes out."""
    shown = {"README": doctest.testfile(str(README), module_relative=False)}
    names = [name for _, name, _ in pkgutil.iter_modules(hoiskend.__path__, "hoiskend.")]
    for name in ("hoiskend", *names):
        shown[name] = doctest.testmod(importlib.import_module(name))
    for name, (failed, _) in shown.items():
        sweep.claim(f"the documentation of {name}", failed == 0)
    sweep.claim("the documentation shows something", sum(tried for _, tried in shown.values()) > 30)


class OfPython(Sweep):
    def __init__(self, wrong):
        super().__init__(None, [], None)
        self.wrong = {} if wrong == "right" else {wrong: 1}

    def library(self):
        return Library(**self.wrong)


WHAT = {
    "examples": run_examples, "threads": run_threads, "messages": take_apart, "misuse": misuse,
    "documentation": run_documentation,
}


def main():
    wrong, what, *names = sys.argv[1:]
    sweep = OfPython(wrong)
    WHAT[what](sweep, [Example.at(EXAMPLES / f"{name}.routes") for name in names])
    for each in sweep.failed:
        print(f"FAILED {each}")
    print(f"{sweep.passed} passed, {len(sweep.failed)} failed")


main()
