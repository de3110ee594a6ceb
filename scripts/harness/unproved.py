"""The crates of Rattle that no proof covers: tests, and a program that measures.

Their sources end in `.rt.txt`, for `rt ci` refuses a source of a crate that crates.txt does not name. `rt try` builds them
in a copy of the crates, with its checks and sanitizers, and what it builds is kept. The number in the name by which that
is run chooses a wrong body; 0 chooses none.
"""

import contextlib
import os
import re
import shutil
import subprocess
import sys
import tempfile
from pathlib import Path

from harness.common import TOP, call
from harness.libraries import rows

# The folder of each crate, and the libraries that it uses.
CRATES = {
    "broadcast_tests": (
        "tests",
        "entries broadcast_core broadcast_mailbox broadcast_world engine_io digest_strategies programs gossip "
        "commonware_broadcast memory_network futures",
    ),
    "rates": ("bench/rates", "broadcast_core broadcast_mailbox commonware_broadcast memory_network futures"),
}
ENDING = ".rt.txt"
# Seconds after which a test is given up: some have threads that wait for each other, and the machine may be busy.
LIMIT = 900
# The crate that keeps what is built, and tells which wrong body is chosen.
CHOICE = "wrong_body"
HARNESS = TOP / "scripts" / "harness"


def sources():
    """The sources of the crates, each with the file that it is in a copy."""
    for crate, (folder, _) in CRATES.items():
        for path in sorted((TOP / folder / "src").rglob(f"*{ENDING}")):
            inside = path.relative_to(TOP / folder).as_posix()
            yield path, Path("crates") / crate / inside.removesuffix(".txt")


def place(file):
    """Where a file of the repository stands in a copy."""
    return next((to for path, to in sources() if path == TOP / file), Path(file))


def copy(top, with_choice=(), kept=()):
    """Copies what `rt` reads, and these crates. `with_choice` are crates whose code asks for the choice, or that are built;
    `kept` are crates whose libraries come along, as proved."""

    def unwanted(folder, names):
        match Path(folder).relative_to(TOP / "crates").parts:
            case [crate]:
                return [] if crate in kept else ["out"]
            case [_, "out"]:
                return [it for it in names if it != "rlib"]
        return []

    shutil.copytree(TOP / "crates", top / "crates", ignore=unwanted)
    shutil.copy(TOP / "HANDLES", top)
    for path, to in sources():
        (top / to).parent.mkdir(parents=True, exist_ok=True)
        shutil.copy(path, top / to)
    for file, source in (("src/lib.rt", "wrong_body.rt.txt"), ("c/wrong_body.c", "wrong_body.c")):
        path = top / "crates" / CHOICE / file
        path.parent.mkdir(parents=True)
        shutil.copy(HARNESS / source, path)
    lines = (TOP / "crates.txt").read_text() + "".join(f"{it}: {libraries}\n" for it, (_, libraries) in CRATES.items())
    for crate in with_choice:
        lines = re.sub(rf"^({crate}\b[^:\n]*:)", rf"\1 {CHOICE}", lines, flags=re.M)
    (top / "crates.txt").write_text(f"{lines}{CHOICE}:\n")


def build(top, crate, with_tests=False):
    """Builds a crate of a copy without a proof: the program, or its tests. Returns what is built."""
    kept = top / f"{crate}{'-tests' if with_tests else ''}.built"
    variables = {**os.environ, "RT_ALLOW_C": CHOICE, "CFLAGS": f"""-DKEPT='"{kept}"'"""}
    words = ["--test"] if with_tests else ["--steps", "1"]
    _, said = call(["rt", "try", *words], cwd=top / "crates" / crate, env=variables)
    return kept if kept.exists() else sys.exit(f"{crate} is not built: {said}")


def chosen(kept, number=0):
    """What is built, by a name that chooses the wrong body of the number."""
    path = kept.with_suffix(f".body{number}")
    with contextlib.suppress(FileExistsError):
        os.link(kept, path)
    return path


def tests_of(executable):
    """The names of the tests that are built."""
    listed = subprocess.check_output([executable, "--list"], text=True).splitlines()
    return [line.removesuffix(": test") for line in listed if line.endswith(": test")]


def fault_of_test(executable, test, limit=LIMIT):
    """What a test prints if it fails, or `None`."""
    is_well, said = call([executable, test], limit)
    return None if is_well and "test result: ok" in said else f"failed: {test}: {said[-2000:]}"


@contextlib.contextmanager
def proved(crate):
    """Proves a crate over the proved libraries, and builds it as a program of `crates` is. Yields the program."""
    print(f"{crate}: it is proved and built first", file=sys.stderr, flush=True)
    with tempfile.TemporaryDirectory(prefix="proved-") as room:
        copy(Path(room), kept=rows())
        folder = Path(room) / "crates" / crate
        _, said = call(["rt", "run"], cwd=folder)
        program = folder / "out" / crate
        yield program if program.exists() else sys.exit(f"{crate} is not proved: {said[-2000:]}")
