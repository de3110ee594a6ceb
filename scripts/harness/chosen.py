"""Wrong bodies that tests must refuse: all side by side in one copy of the crates, built without proof.

Of that copy `rt try` builds each program and each crate of tests once. A number in the name by which it is run chooses
the wrong body, which its text tells by WRONG. With no number nothing may be refused. What has not ended after a minute
is refused.
"""

import subprocess
import sys
import time
from concurrent.futures import ThreadPoolExecutor

from harness import scenarios, unproved
from harness.common import TOP, lanes
from harness.faults import call_fault
from harness.mutants import misplaced
from harness.programs import fault_of
from harness.refusing import Refusal, Refusing
from harness.stored import Row, rows_of
from harness.unproved import CHOICE
from inputs import beyond, lines

# Seconds after which a run is given up.
LIMIT = 60


def crate_of(by):
    """The crate that is built for what must refuse a mutant, and whether its tests are."""
    kind, *words = by
    return {"shown": "examples", "scenarios": scenarios.CRATE}.get(kind) or words[0], kind == "tests"


def copy(top, mutants, crates):
    """Copies what `rt` reads, with all mutants side by side, each of which is chosen by its place in the list."""
    unproved.copy(top, with_choice={it.crate for it in mutants} | {crate for crate, _ in crates})
    texts = {}
    for it in mutants:
        numbers = [at for at, other in enumerate(mutants, 1) if it.label in (other.label, other.over)]
        is_chosen = " || ".join(f"{CHOICE}::is({number})" for number in numbers)
        fault = misplaced(it.choosing(f"({is_chosen})" if len(numbers) > 1 else is_chosen), texts)
        if fault:
            sys.exit(fault)
    for file, text in texts.items():
        (top / unproved.place(file)).write_text(text)


def patience(executable, most):
    """The seconds after which a run is given up. Without a wrong body it ends, however busy the machine is."""
    return most if executable == unproved.chosen(executable) else LIMIT


def refused_by_tests(executable, _crate, *words):
    meant = [test for test in unproved.tests_of(executable) if not words or any(word in test for word in words)]
    assert meant, f"no test has one of {words} in its name"
    limit = patience(executable, unproved.LIMIT)
    return any(unproved.fault_of_test(executable, test, limit) for test in meant)


def refused_by_scenarios(executable, *names):
    limit = patience(executable, scenarios.LIMIT)
    return any(fault for path in scenarios.stored(names) for fault in scenarios.faults(executable, path, limit))


def refused_by_stored(executable, program, *names):
    rows = [row for row in rows_of(program) if not names or row.name in names]
    assert len(rows) >= max(1, len(names)), f"{program} has no stored run of one of {names}"
    return any(fault_of(executable, row) for row in rows)


def refused_by_beyond(executable, program, *words):
    (row,) = (row for row in beyond.rows(program) if row.name == " ".join(words))
    return fault_of(executable, row)


def refused_by_lines(executable, program):
    return any(fault_of(executable, row) for row in lines.rows(program))


def refused_by_first_write(executable, program):
    failed = Refusal(write=1)
    with Refusing() as refusing:
        rows = beyond.long_outputs(program)
        return any(call_fault(row, failed, refusing.run(executable, row, failed)) for row in rows)


def refused_by_output(executable):
    right = (TOP / "crates" / "examples" / "stdout").read_bytes()
    return fault_of(executable, Row("", [], b"", right, b"", 0))


def refused_by_success(executable, _program, *words):
    ended = subprocess.run([executable, *words], stdin=subprocess.DEVNULL, capture_output=True, timeout=LIMIT)
    return ended.returncode == 0


KINDS = {
    "tests": refused_by_tests,
    "scenarios": refused_by_scenarios,
    "stored": refused_by_stored,
    "beyond": refused_by_beyond,
    "lines": refused_by_lines,
    "first-write": refused_by_first_write,
    "shown": refused_by_output,
    "fault": refused_by_success,
}


def is_refused(executable, by):
    kind, *words = by
    try:
        return bool(KINDS[kind](executable, *words))
    except subprocess.TimeoutExpired:
        return True


def tried(known, wanted, room):
    """Builds the mutants that are wanted with those with which they are chosen, and runs what must refuse them. Yields
    each run: its label, and whether it went as it must."""
    began = time.monotonic()
    labels = {it.label: it for it in known}
    mutants = list(dict.fromkeys(labels[label] for it in wanted for label in (it.over, it.label) if label))
    runs = [(labels.get(it.over), by, False) for it in wanted for by in it.by]
    runs = [*dict.fromkeys(runs), *((it, by, True) for it in wanted for by in it.by)]
    crates = sorted({crate_of(by) for _, by, _ in runs})
    copy(room, mutants, crates)
    with ThreadPoolExecutor(lanes()) as pool:
        kept = dict(zip(crates, pool.map(lambda it: unproved.build(room, *it), crates)))
    print(f"{len(mutants)} mutants are built after {time.monotonic() - began:.0f} s", flush=True)

    def judged(run):
        mutant, by, is_wrong = run
        executable = unproved.chosen(kept[crate_of(by)], mutants.index(mutant) + 1 if mutant else 0)
        label = f"{mutant.label if mutant else 'no mutant'}: {' '.join(by)}"
        return label, is_wrong, is_refused(executable, by)

    # A mutant that hangs keeps no processor busy.
    with ThreadPoolExecutor(2 * lanes()) as pool:
        yield from pool.map(judged, runs)
