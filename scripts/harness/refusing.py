"""Runs of a built program that is refused growths of its heap, or a read or a write."""

import os
import struct
import subprocess
import tempfile
from dataclasses import dataclass
from pathlib import Path

SOURCE = Path(__file__).resolve().parent / "refuse.c"
NEVER = 2**63
# How a read or a write goes wrong.
FAILURES = ("fails", "is interrupted", "is short")
# Seconds after which a run is given up.
LIMIT = 60


@dataclass(frozen=True)
class Refusal:
    """What a run is refused: the growths from the first to the last, or a read or a write, counted from 1 on."""

    first: int = NEVER
    last: int = NEVER
    read: int = NEVER
    write: int = NEVER
    failure: str = FAILURES[0]
    # The most bytes that a read or a write moves.
    most: int = NEVER

    def __str__(self):
        if self.first != NEVER:
            return f"growth {self.first} is refused" + (" with all after it" if self.last == NEVER else "")
        call, number = ("read", self.read) if self.read != NEVER else ("write", self.write)
        return f"{call} {number} {self.failure}" if number != NEVER else "nothing is refused"

    def words(self):
        letter = self.failure.split()[-1][0]
        return f"{self.first} {self.last} {self.read} {self.write} {self.most} {letter}"


NOTHING = Refusal()


@dataclass(frozen=True)
class Ran:
    """What a run left: its streams and status, and its numbers of growths, of refused ones, of blocks that it did not
    free, of reads and of writes."""

    stdout: bytes
    stderr: bytes
    status: int
    growths: int
    refused: int
    left: int
    reads: int
    writes: int

    @property
    def outcome(self):
        return self.stdout, self.stderr, self.status


class Refusing:
    """The library that refuses, built in a folder that is gone in the end."""

    def __enter__(self):
        self.folder = tempfile.TemporaryDirectory(prefix="refusing-")
        self.library = Path(self.folder.name) / "refuse.so"
        flags = ["-O2", "-Wall", "-Werror", "-shared", "-fPIC"]
        subprocess.run([os.environ.get("CC", "cc"), *flags, "-o", self.library, SOURCE], check=True)
        return self

    def __exit__(self, *_):
        self.folder.cleanup()

    def run(self, executable, row, refusal=NOTHING, stdout=subprocess.PIPE):
        """Runs the program as the row says, refused this. Its input is a file, so that what it reads at once is the same
        each time."""
        counted = struct.Struct("5Q")
        files = (open(os.memfd_create(name), "w+b") for name in ("stdin", "counts"))
        with next(files) as stdin, next(files) as counts:
            stdin.write(row.stdin)
            stdin.seek(0)
            counts.truncate(counted.size)
            given = {"LD_PRELOAD": str(self.library), "COUNTS": str(counts.fileno()), "REFUSED": refusal.words()}
            how = {"stdin": stdin, "stdout": stdout, "stderr": subprocess.PIPE, "timeout": LIMIT}
            ran = subprocess.run([executable, *row.args], env=given, pass_fds=[counts.fileno()], **how)
            numbers = counted.unpack(counts.read())
            return Ran(ran.stdout or b"", ran.stderr, ran.returncode, *numbers)
