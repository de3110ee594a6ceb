"""The toolchain, and the crates and libraries of the repository."""

import functools
import re
import subprocess
from pathlib import Path

from harness.common import TOP

CRATES = TOP / "crates"


@functools.cache
def kit():
    """The toolchain's folder."""
    return Path(subprocess.check_output(["rt", "doc"], text=True).strip()).parent


@functools.cache
def rows():
    """What crates.txt says of each crate: what kind it is, and the libraries that it names."""
    found = re.findall(r"^(\w+)([^:#\n]*):([^\n#]*)$", (TOP / "crates.txt").read_text(), re.M)
    return {name: (kind.split(), libraries.split()) for name, kind, libraries in found}


def below(crate):
    """The crates of the repository on which the crate stands."""
    found, left = [], [crate]
    while left:
        for it in rows()[left.pop()][1]:
            if it in rows() and it not in found:
                found.append(it)
                left.append(it)
    return found


def built(crate):
    """Where the library of a crate stands."""
    return CRATES / crate / "out" / "rlib"


def words(crate):
    """The words that tell the compiler of a crate, and of the libraries that are built below it."""
    kind, named = rows()[crate]
    rlibs = kit() / "rlibs"
    root = next(it for it in ("src/lib.rt", "src/main.rt") if (CRATES / crate / it).exists())
    found = ["--crate-name", crate, root]
    if "staticlib" in kind:
        found += ["--crate-type", "staticlib"]
    for it in ["std", *named]:
        found += ["--extern", f"{it}={built(it) if it in rows() else rlibs}/{it}.rlib"]
    for folder in [rlibs, *map(built, below(crate))]:
        found += ["-L", f"dependency={folder}"]
    logic = kit() / "rattle" / "logic" / "antt-project.json"
    return [*found, "--antt-project", logic, "--links", f"{crate}="]
