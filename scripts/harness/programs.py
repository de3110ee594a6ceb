"""The built programs of the repository, and runs of them."""

import os
import re
import resource
import subprocess
import sys
from contextlib import ExitStack
from pathlib import Path

from harness.common import TOP, usage

# A program as LLVM builds it, and as Rattle's own compiler does.
SUFFIXES = ("", ".by-rattle")
# Seconds after which a run is given up.
LIMIT = 60


def builds_of(program):
    return [TOP / "crates" / program / "out" / f"{program}{suffix}" for suffix in SUFFIXES]


def shown(executable):
    return executable.relative_to(TOP) if executable.is_relative_to(TOP) else executable


def unbuilt(executable):
    """What is wrong with a program that is not built, or `None`."""
    if executable.is_file() and os.access(executable, os.X_OK):
        return None
    return f"{shown(executable)}: it is not built; `rt ci` builds it"


def chosen(words, programs, text):
    """The programs with their executables that the words of a command name: all, or one."""
    match words:
        case []:
            return [(program, build) for program in programs for build in builds_of(program)]
        case [program, executable] if program in programs:
            return [(program, Path(executable).resolve())]
        case _:
            usage(text)


def run_row(executable, row):
    """Standard output, standard error and the status of one run."""

    def set_stack():
        most = resource.getrlimit(resource.RLIMIT_STACK)[1]
        resource.setrlimit(resource.RLIMIT_STACK, (row.stack, most))

    streams = {"input": row.stdin, "stdout": subprocess.PIPE, "stderr": subprocess.PIPE}
    with ExitStack() as files:
        for stream, path in row.devices.items():
            streams[stream] = os.open(path, os.O_RDONLY if stream == "stdin" else os.O_WRONLY)
            files.callback(os.close, streams[stream])
        if "stdin" in streams:
            del streams["input"]
        limits = {"timeout": LIMIT, "preexec_fn": set_stack if row.stack else None}
        ran = subprocess.run([executable, *row.args], **streams, **limits)
    return ran.stdout or b"", ran.stderr or b"", ran.returncode


def first_difference(expected, got):
    end = [b"(the end)"]
    expected = expected.splitlines(keepends=True) + end
    got = got.splitlines(keepends=True) + end
    at = next(i for i, pair in enumerate(zip(expected, got)) if pair[0] != pair[1])
    return f"line {at + 1} is {got[at][:80]!r}, not {expected[at][:80]!r}"


def fault_of(executable, row):
    """What differs from what is expected, or `None`."""
    try:
        stdout, stderr, status = run_row(executable, row)
    except (OSError, subprocess.TimeoutExpired) as fault:
        return f"{shown(executable)}: {row.name}: it could not be run: {fault}"
    found = []
    if status != row.status:
        found.append(f"the status is {status}, not {row.status}")
    is_matched = row.is_pattern and re.fullmatch(row.stdout, stdout)
    if stdout != row.stdout and not is_matched:
        found.append(f"standard output: {first_difference(row.stdout, stdout)}")
    if stderr != row.stderr:
        found.append(f"standard error: {first_difference(row.stderr, stderr)}")
    return f"{shown(executable)}: {row.name}: {'; '.join(found)}" if found else None
