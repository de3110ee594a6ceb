"""The stored runs: the text files of `runs/`, whose README.md has their form."""

import re
from dataclasses import dataclass, field
from pathlib import Path

from harness.common import TOP
from harness.libraries import rows

RUNS = TOP / "runs"
NAME = re.compile(r"^## (\S+)$", re.M)
COMMAND = re.compile(
    r"(?:ulimit -s (?P<stack>\d+); )?(?P<words>.*?)"
    r"(?: < (?P<stdin>\S+))?(?: > (?P<stdout>\S+))?(?: 2> (?P<stderr>\S+))?(?: \| cmp - (?P<same>\S+))?"
)
WORD = re.compile(r"'([^']*)'|(\S+)")
ESCAPE = re.compile(rb"\\x([0-9a-f]{2})|\\\(((?:[^\\)]|\\[nx])*)\)\*(\d+)|\\n")
MARKS = ("$", "<", ">", "~", "!")
STREAMS = ("stdin", "stdout", "stderr")
# The faults: name, status, text.
FAULTS = re.findall(r"^([a-z-]+) (\d) (.*)$", (RUNS / "faults.txt").read_text(), re.M)


@dataclass(frozen=True)
class Row:
    """One run of a program, and what it must give."""

    name: str
    args: list
    stdin: bytes
    stdout: bytes
    stderr: bytes
    status: int
    # Files that stand for some of the streams.
    devices: dict = field(default_factory=dict)
    # The bytes of stack that a thread wants, or `None` for as many as else.
    stack: int | None = None
    # Whether `stdout` is a regular expression, which all of the output must match.
    is_pattern: bool = False

    @property
    def outcome(self):
        return self.stdout, self.stderr, self.status

    @property
    def is_plain(self):
        """Whether it is a run of arguments and an input alone, whose whole output is known."""
        return not (self.devices or self.stack or self.is_pattern)


def meant(text):
    """The bytes that a piece of a line means."""

    def put(found):
        byte, unit, times = found.groups()
        if byte:
            return bytes.fromhex(byte.decode())
        return meant(unit) * int(times) if times else b"\n"

    return ESCAPE.sub(put, text)


def joined(lines):
    """The bytes of lines."""
    texts = (it.encode() for it in lines)
    return b"".join(meant(it[:-1]) if it.endswith(b"\\") else meant(it) + b"\n" for it in texts)


def parsed(name, lines):
    """The run of a block."""
    said = {mark: [] for mark in MARKS}
    for line in lines:
        mark, _, rest = line.partition(" ")
        said[mark].append(rest)
    command = COMMAND.fullmatch(said["$"][0]).groupdict()
    _, *args = (meant("".join(it).encode()) for it in WORD.findall(command["words"]))
    devices = {stream: str(TOP / command[stream]) for stream in STREAMS if command[stream]}
    stdin, stdout = joined(said["<"]), joined(said["~"] or said[">"])
    if Path(devices.get("stdin", "")).is_file():
        stdin = Path(devices.pop("stdin")).read_bytes()
    if command["same"]:
        stdout = (TOP / command["same"]).read_bytes()
    stack = int(command["stack"]) * 1024 if command["stack"] else None
    stderr, status = ending(*said["!"][0].split()) if said["!"] else (b"", 0)
    stderr = b"" if command["stderr"] else stderr
    return Row(name, args, stdin, stdout, stderr, status, devices, stack, bool(said["~"]))


def ending(name, number=""):
    """Standard error and the status of a run that ends with the fault of this name, at the line of this number."""
    ((status, text),) = (rest for it, *rest in FAULTS if it == name)
    return re.sub(r"\bN\b", str(number), text).encode() + b"\n", int(status)


def programs_with_rows():
    """The programs of crates.txt that have stored runs."""
    return sorted(it.name for it in RUNS.iterdir() if it.name in rows())


def rows_of(program):
    """The stored runs of a program."""
    rows = []
    for path in sorted((RUNS / program).glob("*.txt")):
        _, *blocks = NAME.split(path.read_text())
        for name, text in zip(blocks[::2], blocks[1::2]):
            rows.append(parsed(name, text.strip("\n").partition("\n\n")[0].split("\n")))
    return rows
