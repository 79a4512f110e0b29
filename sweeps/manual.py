"""The manual page's example and README's first script are run."""
from pathlib import Path
from textwrap import dedent

from runs import DONE, answers

TOP = Path(__file__).resolve().parents[1]
PAGE, README = TOP / "docs" / "routesim.1", TOP / "README.md"


def run_its_example(sweep):
    """The example's script, between `END`s, gives the transcript that the page shows behind it."""
    shown = PAGE.read_text().split("$ routesim << 'END'\n")[1].split(".Ed\n")[0]
    script, transcript = shown.split("END\n")
    ran = sweep.run(script.encode())
    sweep.claim("the manual page's example", ran.told() == (transcript.encode(), DONE, b"") and ran.left_nothing())


def blocks(text):
    """The indented blocks of a text."""
    parts = [part.strip("\n") for part in text.split("\n\n") if part.strip("\n").startswith("    ")]
    return [dedent(part) + "\n" for part in parts]


def run_the_first_script(sweep):
    """README's first script ends with the message whose front README shows, behind the same in words."""
    script, _, front = blocks(README.read_text().split("## A first script\n")[1].split("\n## ")[0])
    ran = sweep.run(script.encode())
    last = answers(ran.wrote)[-1] if ran.wrote else b""
    holds = last.startswith(front.strip().removesuffix("...").encode()) and ran.status == DONE and ran.left_nothing()
    sweep.claim("README's first script", front.endswith("...\n") and holds)
