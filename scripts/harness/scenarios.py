"""Scenarios in words, and what the engine in Rattle tells of them. tests/README.md has the language."""

import itertools
import re
import subprocess

from harness.common import TOP

CRATE = "broadcast_tests"
STORED = TOP / "tests" / "scenarios"
# What is told of an engine that fails.
ENDED = re.compile(r"^ended with .*", re.M | re.S)
# Seconds after which a run of the engine is given up.
LIMIT = 1_200


def stored(names=()):
    """The files of stored scenarios: all, or those of these names."""
    found = [it for it in sorted(STORED.rglob("*.txt")) if not names or it.stem in names]
    assert len(found) >= max(1, len(names)), f"not all of {names} are files of scenarios"
    return found


def tell(executable, text, limit=LIMIT):
    """What the built engine in Rattle tells of scenarios: the same text, with the outcome behind each sentence."""
    ran = subprocess.run([executable], input=text, capture_output=True, text=True, timeout=limit)
    return ran.stdout + (f"\nended with {ran.returncode}: {ran.stderr[-2000:]}\n" if ran.returncode else "")


def faults(executable, path, limit=LIMIT):
    """Yields, of each scenario of a file, what is told otherwise than is written there, or `None`."""
    for fault in told_otherwise(path.read_text(), tell(executable, path.read_text(), limit)):
        yield f"{path.relative_to(TOP)}: {fault}" if fault else None


def told_otherwise(written, told):
    """Yields, of each written scenario, the first sentence of which something else is told, or `None`."""
    written, told = (f"\n{it}".split("\n## ")[1:] for it in (written, told))
    for scenario, other in itertools.zip_longest(written, told, fillvalue=""):
        yield first_difference(scenario.split("\n"), other.split("\n"))


def first_difference(lines, told):
    for number, (line, other) in enumerate(itertools.zip_longest(lines, told, fillvalue="")):
        for sentence, seen in itertools.zip_longest(line.split(" / "), other.split(" / "), fillvalue="nothing"):
            if sentence != seen and (": " in sentence or sentence != seen.partition(": ")[0]):
                return f"{lines[0]}: line {number}: `{sentence}`, but it is `{seen}`"
    return None
