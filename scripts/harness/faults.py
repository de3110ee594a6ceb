"""What must come of growths, reads and writes of a program that are refused in turn."""

import itertools
import os
import re
from dataclasses import replace

from harness.programs import first_difference
from harness.refusing import FAILURES, NEVER, NOTHING, Refusal
from harness.stored import Row, ending

REFUSED = "refused memory"
# Events that come first, one that grows nothing, and a line that ends a run before its first event.
FIRST, GROWS_NOTHING, NO_EVENT = ("subscribe 7 61", f"payload 5 {'0' * 16}"), "get 7 61", "nonsense"
# How a run ends that lacks memory, or whose read or write fails.
MEMORY, READ_FAILED, WRITE_FAILED = map(ending, ("memory", "read", "write"))
# The parts in which the longest stream of a row is moved.
PARTS = 8
RELAYED = re.compile(rb"relayed: (?:None|Some\(\[(.*)\]\)), (\d+) wait\n")
# A pipe that nothing reads. It is made before any thread starts a process, which would hold the reader for a moment.
_READER, CLOSED_PIPE = os.pipe()
os.close(_READER)


class Events:
    """A row whose lines are events, and what a program makes of it where some are refused."""

    def __init__(self, program, row, run):
        self.row, self.run, self.known = row, run, {}
        self.lines = row.stdin.decode(errors="surrogateescape").removesuffix("\n").split("\n")
        places = list(range(len(self.lines)))
        honest = [at for at in places if not self.lines[at].startswith("hostile ")]
        # The events that each part of the output answers, behind its heading.
        self.parts = [places] if program == "replay" else [places, honest]
        self.heading = len(self.parts) - 1

    def split(self, stdout):
        """The lines of each part of an output."""
        lines = stdout.decode(errors="replace").split("\n")
        if len(self.parts) == 1 or "without" not in lines:
            return [lines]
        at = lines.index("without")
        return [lines[:at], lines[at:]]

    def without(self, gone):
        """What the program prints where these events do not come."""
        if gone not in self.known:
            kept = "".join(f"{line}\n" for at, line in enumerate(self.lines) if at not in gone)
            self.known[gone] = self.run(replace(self.row, stdin=kept.encode(errors="surrogateescape"))).stdout
        return self.split(self.known[gone])

    def refused(self, stdout):
        """The places of the refused events, for each part."""
        answers = (lines[self.heading :] for lines in self.split(stdout))
        pairs = (zip(places, lines) for places, lines in zip(self.parts, answers))
        return [frozenset(at for at, line in it if line == REFUSED) for it in pairs]

    def fault(self, ran):
        """What is wrong with an output in which events are refused, or `None`."""
        gone, parts = self.refused(ran.stdout), self.split(ran.stdout)
        if len(parts) != len(self.parts) or not 0 < sum(map(len, gone)) <= ran.refused:
            return f"it prints {ran.stdout[-80:]!r}, and {ran.refused} growths were refused"
        for number, lines in enumerate(parts):
            rest = [line for line in lines if line != REFUSED]
            if rest != self.without(gone[number])[number]:
                return f"without {sorted(gone[number])} the rest is not what the rest gives"
        return None


def growth_fault(row, events, ran):
    """What is wrong with a run of which growths were refused, or `None`."""
    if ran.left:
        return f"{ran.left} blocks are not freed"
    if ran.outcome == row.outcome:
        return None
    if (ran.stderr, ran.status) == MEMORY and ran.refused:
        whole = not ran.stdout or ran.stdout.endswith(b"\n")
        return None if whole and row.stdout.startswith(ran.stdout) else "it prints no beginning of its output"
    if ran.status or ran.stderr or row.status:
        return f"the status is {ran.status}, and standard error {ran.stderr[:80]!r}"
    return events.fault(ran)


def try_growths(program, row, run, seen):
    """Yields each refusal of growths, and what is wrong with its run. Counts the kinds of the events that are refused."""
    events = Events(program, row, run)
    ample = run(row)
    yield NOTHING, growth_fault(row, events, ample) or (None if ample.growths else "it does not grow")
    gave_up, told = [], [[] for _ in events.parts]
    for first in range(1, ample.growths + 1):
        for refusal in (Refusal(first=first, last=first), Refusal(first=first)):
            ran = run(row, refusal)
            yield refusal, growth_fault(row, events, ran)
            gone = events.refused(ran.stdout) if ran.status == 0 else []
            seen.update(events.lines[at].split(" ")[0] for at in frozenset().union(*gone))
            if refusal.last == first:
                gave_up += [first] if ran.status == 3 else []
                for part, places in enumerate(gone):
                    told[part] += [first] if places else []
    # A run that has begun refuses events, and is not given up.
    between = [it for it in gave_up for part in told if part and part[0] < it < part[-1]]
    yield "a run that has begun", f"it is given up at the growths {between}" if between else None


def try_first_events(run):
    """Yields each event that comes first, and what is wrong: a run is given up for what is read and made before it alone."""

    def gave_up(*lines):
        row = Row("", [b"1", b"2"], "".join(f"{it}\n" for it in lines).encode(), b"", b"", 0)
        sweep = range(1, run(row).growths + 1)
        return sum(run(row, Refusal(first=it, last=it)).status == 3 for it in sweep)

    # What a run makes behind its reading, where no event grows.
    made = gave_up(GROWS_NOTHING) - gave_up(GROWS_NOTHING, NO_EVENT)
    for event in FIRST:
        given, wanted = gave_up(event), gave_up(event, NO_EVENT) + made
        yield event, None if given == wanted else f"{given} growths give the run up, not {wanted}"


def call_fault(row, refusal, ran):
    """What is wrong with a run of which a read or a write went wrong, or `None`."""
    stdout, stderr, status = row.outcome
    if refusal.failure == "fails" and refusal.read != NEVER:
        stdout, (stderr, status) = b"", READ_FAILED
    elif refusal.failure == "fails" and refusal.write != NEVER and status == 0:
        # What a failed write leaves in the buffer is written once more as the program ends.
        stdout = ran.stdout if stdout.startswith(ran.stdout) else b""
        stderr, status = WRITE_FAILED
    elif refusal.failure == "fails" and refusal.write != NEVER:
        stderr = ran.stderr if stderr.startswith(ran.stderr) else stderr
    if ran.status != status:
        return f"the status is {ran.status}, not {status}"
    return None if ran.outcome == (stdout, stderr, status) else first_difference(stdout + stderr, ran.stdout + ran.stderr)


def try_calls(row, run):
    """Yields each read and write that goes wrong, and what is wrong with its run."""
    longest = max(len(row.stdin), len(row.stdout), len(row.stderr))
    for most in (NEVER, longest // PARTS + 1):
        whole = Refusal(most=most)
        ample = run(row, whole)
        is_seen = ample.writes and (ample.reads or row.status)
        yield whole, call_fault(row, whole, ample) if is_seen else "its reads and writes are not seen"
        places = [("read", it) for it in range(1, ample.reads + 1)]
        places += [("write", it) for it in range(1, ample.writes + 1)]
        for (call, number), failure in itertools.product(places, FAILURES):
            refusal = replace(whole, **{call: number, "failure": failure})
            yield refusal, call_fault(row, refusal, run(row, refusal))
    yield "standard output is a closed pipe", closed_pipe_fault(row, run)


def closed_pipe_fault(row, run):
    ran = run(row, NOTHING, stdout=CLOSED_PIPE)
    failed = WRITE_FAILED if row.status == 0 else (row.stderr, row.status)
    return None if (ran.stderr, ran.status) == failed else f"the status is {ran.status}, and {ran.stderr!r} is told"


def try_relay(run):
    """Yields each growth that is refused to the relay of `examples`: as many broadcasts wait as are told as accepted, and
    without memory for feedbacks none."""
    row, seen = Row("", [b"relayed"], b"", b"", b"", 0), set()
    for number in range(1, run(row).growths + 1):
        refusal, fault = Refusal(first=number, last=number), None
        if found := RELAYED.search(run(row, refusal).stdout):
            seen.add(found[1])
            accepted = len(re.findall(rb"\w+", found[1] or b""))
            fault = None if accepted == int(found[2]) else f"{accepted} are told as accepted, and {int(found[2])} wait"
        yield refusal, fault
    yield "no memory for feedbacks", None if None in seen else "it is not seen"
    yield "no memory for a broadcast", None if seen & {b"", b"Ok"} else "it is not seen"
