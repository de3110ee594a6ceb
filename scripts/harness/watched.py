"""Which crates take the time of `rt ci`, and at which it is: read off the provers that run below this repository."""

import os
import re
import threading
import time
from collections import Counter
from pathlib import Path

from harness.common import TOP, say
from harness.libraries import rows

TICKS = os.sysconf("SC_CLK_TCK")
# Seconds between two looks at the provers, and between two reports.
PAUSE, REPORT = 0.5, 60
# The crates whose proofs are the unit of the gate's time: a ratio is the same on a slow machine and on a fast one.
UNIT = ("entries", "broadcast_core")
FN = re.compile(r"^ *(?:pub(?:\(\w+\))? )?(?:(?:unsafe|const|final|extern \"C\") )*fn \w+", re.M)


def seconds_of(process):
    """The processor time of a process, in seconds."""
    fields = (process / "stat").read_text().rpartition(")")[2].split()
    return (int(fields[11]) + int(fields[12])) / TICKS


def work_of(process):
    """What a prover proves: its crate, and whether that is the crate itself, and not its tests. `None` for a process
    that is no prover of this repository."""
    words = (process / "cmdline").read_bytes().decode(errors="replace").split("\0")
    if not words[0].endswith("/bin/rattle") or "--crate-name" not in words or str(TOP) not in " ".join(words):
        return None
    is_own = os.readlink(process / "cwd").startswith(f"{TOP}/crates/") and "--test" not in words
    return words[words.index("--crate-name") + 1], is_own


def functions(crate):
    """How many functions a crate has. How many are proved cannot be known: `rt ci` keeps what the prover prints to its end."""
    return sum(len(FN.findall(it.read_text())) for it in (TOP / "crates" / crate / "src").rglob("*.rt"))


class Watch:
    """Watches the provers while a step runs, and reports each minute at what they are."""

    def __init__(self, name):
        self.name, self.taken, self.at_work = name, {}, []
        self.began, self.done = time.monotonic(), threading.Event()
        self.thread = threading.Thread(target=self.look_on, daemon=True)

    def __enter__(self):
        self.thread.start()
        return self

    def __exit__(self, *_):
        self.done.set()
        self.thread.join()

    def look(self):
        found = set()
        for process in Path("/proc").glob("[0-9]*"):
            # One that ends meanwhile keeps what was read of it before.
            try:
                work = work_of(process)
                if work:
                    self.taken[process.name, work] = seconds_of(process)
                    found.add(work[0])
            except OSError:
                continue
        self.at_work = sorted(found)

    def look_on(self):
        reported = self.began
        while not self.done.wait(PAUSE):
            self.look()
            if time.monotonic() - reported >= REPORT and self.at_work:
                reported = time.monotonic()
                seen, taken = {crate for (_, (crate, _)) in self.taken}, self.by_crate()
                at_work = (f"{it} of {functions(it)} functions, {taken[it]:.0f} s so far" for it in self.at_work)
                say(
                    f"gate: {self.name}: {(reported - self.began) / 60:.0f} min; "
                    f"begun {len(seen)} of {len(rows())} crates; at work: {'; '.join(at_work)}"
                )

    def by_crate(self, only_own=False):
        """The seconds of processor time of each crate's provers; those of its tests too, unless `only_own`."""
        taken = Counter()
        for (_, (crate, is_own)), seconds in self.taken.items():
            taken[crate] += seconds if is_own or not only_own else 0
        return taken

    def unit(self):
        """The seconds of the proofs of UNIT, or `None` where one was kept by an earlier run."""
        own = self.by_crate(only_own=True)
        return sum(own[it] for it in UNIT) if all(own[it] > 1 for it in UNIT) else None
