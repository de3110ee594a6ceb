"""Builds the static library by both compilers, and keeps the module from which clang compiled it."""

import hashlib
import json
import tempfile
from pathlib import Path

from harness.common import call
from harness.libraries import CRATES, below, built, kit, words

NAME = "broadcast_c"
CRATE = CRATES / NAME
BACKENDS = ("llvm", "rattle")
# What clang compiled the library from, and the words that it was called with and the checksum of the library.
MODULE, CALLED = CRATE / "out" / f"{NAME}.bc", CRATE / "out" / f"{NAME}.json"
# A clang that keeps that. The toolchain names the module as the word with this ending.
CLANG = """#!/bin/sh
for word; do case $word in *.bc) cp "$word" '{room}/module.bc' ;; esac; done
printf '%s\\n' "$@" > '{room}/words'
exec '{clang}' "$@"
"""


def library_of(backend):
    """Where the library of a compiler stands."""
    folder = CRATE / "out" if backend == "llvm" else CRATE / "out" / f"by-{backend}"
    return folder / f"lib{NAME}.a"


def sha256(data):
    return hashlib.sha256(data).hexdigest()


def toolchain_that_keeps(room):
    """Makes a folder that stands in for the toolchain, but for its clang."""
    real, folder = kit() / "toolchain", room / "toolchain"
    (folder / "bin").mkdir(parents=True)
    for it in (*real.iterdir(), *(real / "bin").iterdir()):
        if it.name not in ("bin", "clang"):
            (folder / it.relative_to(real)).symlink_to(it)
    clang = folder / "bin" / "clang"
    clang.write_text(CLANG.format(room=room, clang=real / "bin" / "clang"))
    clang.chmod(0o755)
    return folder


def keep(room, library):
    """Keeps what clang compiled a library from."""
    MODULE.write_bytes((room / "module.bc").read_bytes())
    called = {"library": sha256(library.read_bytes()), "words": (room / "words").read_text().splitlines()}
    CALLED.write_text(json.dumps(called))


def kept_words():
    """Returns the words with which clang compiled the library from the kept module, or `None` if that is of another one."""
    library = library_of("llvm")
    if not all(it.exists() for it in (library, MODULE, CALLED)):
        return None
    called = json.loads(CALLED.read_text())
    return called["words"] if called["library"] == sha256(library.read_bytes()) else None


def build(backends=BACKENDS):
    """Builds the library by each compiler. Returns what went wrong, by compiler.

    Proves the crate once, over the libraries below it. Those that `rt ci` leaves have no stamp, and are proved; else
    `rt lib` proves what changed."""
    folders = [built(it) for it in below(NAME)]
    if not all(any(it.glob("*.rlib")) and not (it / "stamp").exists() for it in folders):
        is_well, said = call(["rt", "lib"], cwd=CRATE)
        if not is_well:
            return dict.fromkeys(backends, said[-2000:])
    rattle, given = kit() / "bin" / "rattle", words(NAME)
    with tempfile.TemporaryDirectory() as folder:
        room = Path(folder)
        checked = ["--logic-built", kit() / "logic_built", "--jobs", "1", "-o", room / "checked"]
        is_well, said = call([rattle, "check", *given, *checked], cwd=CRATE)
        if not is_well:
            return dict.fromkeys(backends, said[-2000:])
        toolchains, faults = {"llvm": toolchain_that_keeps(room), "rattle": kit() / "toolchain"}, {}
        for backend in backends:
            library = library_of(backend)
            library.parent.mkdir(parents=True, exist_ok=True)
            library.unlink(missing_ok=True)
            made = ["--crate-checked", room / "checked", "--toolchain", toolchains[backend]]
            is_well, said = call([rattle, "build", *given, *made, "--backend", backend, "-o", library], cwd=CRATE)
            faults[backend] = None if is_well else said[-2000:]
            if is_well and backend == "llvm":
                keep(room, library)
        return faults
