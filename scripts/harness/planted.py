"""Wrong bodies of the crates of `rust`, which their tests must refuse: one after the other, in a copy of the crates.

Each must compile. What has not ended after two minutes is refused. They are built beside the crates themselves, so
nothing else may be built there meanwhile.
"""

import re
import shutil

from harness.cargo import cargo
from harness.common import TOP
from harness.mutants import misplaced, read_all

RUST = TOP / "rust"
PLACE = RUST / "target" / "mutants"
# What the crates read of the repository.
PARTS = ("rust", "tests")
LIMIT = 120
# The test that runs the scenarios which the engine in Rattle told of.
GENERATED = ("cargo", "scenarios", "generated", "--include-ignored")
PASSED = re.compile(r"^test result: ok\. [1-9]", re.M)


def known(kind="cargo"):
    """The wrong bodies that something of this kind must refuse."""
    return [it for it in read_all("mutants/rust") if any(by[0] == kind for by in it.by)]


def copy():
    shutil.rmtree(PLACE, ignore_errors=True)
    for part in PARTS:
        shutil.copytree(TOP / part, PLACE / part, ignore=shutil.ignore_patterns("target"))


def tests_of(crate, target):
    """What cargo builds of the tests of a crate: a file of them, or those within the crate."""
    sources = RUST / crate / "src"
    unit = [kind for kind, file in (("--lib", "lib.rs"), ("--bins", "main.rs")) if (sources / file).exists()]
    # With little optimisation the crate is built in a few seconds.
    fast = ["--config", f"profile.release.package.{crate}.opt-level=1"]
    return [*fast, "--release", "--all-features", "-p", crate, *(unit if target == "unit" else ["--test", target])]


def run(crate, by, env):
    """Returns whether the tests are built, whether they passed, and what was said."""
    _, target, *words = by if by[0] == "cargo" else GENERATED
    tests = tests_of(crate, target)
    is_built, said = cargo("test", [*tests, "--no-run"], env, 1_200, cwd=PLACE / "rust")
    if not is_built:
        return False, False, said
    words = [*tests, "--", "--test-threads", "1", *words]
    is_well, said = cargo("test", words, env, LIMIT, cwd=PLACE / "rust")
    return True, is_well and bool(PASSED.search(said)), said


def plant(mutant):
    """Puts a mutant into the copy. Returns the files that it changes."""
    texts = {}
    if fault := misplaced(mutant, texts):
        raise SystemExit(fault)
    for file, text in texts.items():
        (PLACE / file).write_text(text)
    return texts


def tried(mutants, env, kind="cargo"):
    """Tries mutants by what is of this kind. Yields a label, whether all went as it must, and what was said."""
    copy()
    env = {**env, "CARGO_TARGET_DIR": str(RUST / "target")}
    of_kind = {it: [by for by in it.by if by[0] == kind] for it in mutants}
    for crate, by in dict.fromkeys((it.crate, by) for it in mutants for by in of_kind[it]):
        _, is_well, said = run(crate, by, env)
        yield f"no mutant: {crate} {' '.join(by)}", is_well, said
    for mutant in mutants:
        changed = plant(mutant)
        for by in of_kind[mutant]:
            is_built, is_well, said = run(mutant.crate, by, env)
            yield f"{mutant.label}: {' '.join(by)}", is_built and not is_well, said
        for file in changed:
            (PLACE / file).write_text((TOP / file).read_text())
