"""The programs of `ffi`, and how they are compiled."""

import os

from harness.common import TOP

CC = os.environ.get("CC", "cc")
FLAGS = ["-std=c99", "-Wall", "-Wextra", "-Wpedantic", "-Werror", "-O1"]
WRAPPED = "-Wl,--wrap=malloc,--wrap=realloc,--wrap=free"
# With what each program is linked beside the library.
PROGRAMS = {
    "hello": ["heap.c"], "packet": ["heap.c"], "coverage": ["heap.c"], "bucket": ["heap.c"],
    "store": ["heap.c"], "log": ["heap.c"], "refused": ["heap.c", WRAPPED], "blocks": [],
}
STORY = """\
Alice broadcasts "hello", whose digest is 2cf24dba5fb0a30e26e83b2ac5b9e29e1b161e5c1fa7425e73043362938b9824
Bob does not have it yet: a subscribe waits as ticket 7
Bob receives it, and replies to ticket 7
Mallory sends Bob 1,000 messages, of which Bob keeps the newest 10
Bob still has Alice's message: "hello"
"""


def sources(name, top=TOP):
    """The words with which a program is compiled, but for the library."""
    return [it if it.startswith("-") else top / "ffi" / it for it in (f"{name}.c", *PROGRAMS[name])]


def is_told(name, said):
    """Returns whether a program printed what it must."""
    return said == STORY if name == "hello" else f"{name}: ok" in said
