"""Wrong bodies that the prover must refuse: those of a crate in one check, over the libraries that are built below it.

Where several change one function, the later ones wait for another check. A mutant is refused if its function is not
proved for a goal of its own: not only since it calls one that is not proved, and not only since its proof cites a name
that is gone.
"""

import re
import shutil
import tempfile
from pathlib import Path

from harness.common import TOP, call
from harness.libraries import kit, words

PARTS = ("src", "specs", "proofs")
FN = re.compile(r"( *)(?:pub(?:\(\w+\))? )?(?:(?:unsafe|const|final|extern \"C\") )*fn (\w+)")
IMPL = re.compile(r"impl\b")
# What the prover says of a proof whose names are gone, or which it does not read, which shows nothing of a contract.
LOST = re.compile(r"has no field|is not in scope|has no `|was not admitted|rattle does not read")
# The goal of an error in a proof, and of a note on one that nothing proves.
GOAL = re.compile(r"error:? *`?([\w+-]*)")
OPEN = re.compile(r"^note: .*it is not proved that .*\(`([\w+-]+)`\)$", re.M)
# What stands for no function's body.
OUTSIDE = re.compile(r"\s*(///|//!|use |ghost use |#\[|(pub )?fn )")


def type_of(text):
    """How the prover names a type or trait: with its arguments, if they are more than parameters."""
    name, arguments = re.match(r"(?:\w+::)*(\w+)(.*)", text.strip()).groups()
    name = name[:1].upper() + name[1:]  # u64 is U64
    return "+".join([name, *re.findall(r"\w+", arguments)]) if re.search("[<:]", arguments[1:]) else name


def type_in_impl(text, parameters):
    """How the prover names a type or trait where one is for the other: with its arguments that are no parameters."""
    name, arguments = re.match(r"(?:\w+::)*(\w+)(.*)", text.strip()).groups()
    return name[:1].upper() + name[1:] + "".join(it for it in re.findall(r"\w+", arguments) if it not in parameters)


def owner_of(header):
    """The name of the type that an `impl` is for, if its arguments are only parameters; and how the prover names both."""
    depth, at = 0, len("impl")
    while at < len(header) and (depth or header[at] in "<"):
        depth += {"<": 1, ">": -1}.get(header[at], 0)
        at += 1
    before, has_trait, after = header[at:].partition(" for ")
    named, parameters = type_of(after if has_trait else before), re.findall(r"\w+", header[len("impl"):at])
    both = "".join(type_in_impl(it, parameters) for it in (after, before)) if has_trait else named
    return None if "+" in named else named, both


def module_of(file, owner=None):
    """The path of the module of a file, or of that of its crate in which this type is declared."""
    declares = re.compile(rf"^(?:pub(?:\(\w+\))? )?(?:struct|enum) {owner}\b", re.M)
    if owner and not declares.search((TOP / file).read_text()):
        others = sorted(TOP.joinpath(*Path(file).parts[:3]).rglob("*.rt"))
        file = next((it.relative_to(TOP) for it in others if declares.search(it.read_text())), file)
    return [it for it in Path(file).with_suffix("").parts[3:] if it not in ("lib", "main")]


def function_at(file, text, old):
    """The name of the function in which this text stands, below its crate, as the prover has it."""
    lines, place = text.split("\n"), text.count("\n", 0, text.index(old))
    at = max(i for i in range(place + 1) if FN.match(lines[i]))
    indent, name = FN.match(lines[at]).groups()
    if not indent:
        return "::".join([*module_of(file), name])
    start = max(i for i in range(at) if IMPL.match(lines[i]))
    owner, named = owner_of(" ".join(lines[start:at]).partition(" {")[0].partition(" where ")[0])
    return "::".join([*module_of(file, owner), named, name])


def functions_of(mutant):
    """The names of the functions whose bodies the mutant changes."""
    texts = {file: (TOP / file).read_text() for file, _, _ in mutant.changes}
    return {function_at(file, texts[file], old) for file, old, _ in mutant.changes if not OUTSIDE.match(old)}


def checks_of(mutants):
    """The mutants in as few checks as may be, each a list of mutants with the functions that they change."""
    checks = []
    for it in mutants:
        changed = functions_of(it)
        of_others = ([name for _, names in check for name in names] for check in checks)
        free = next((check for check, names in zip(checks, of_others) if changed.isdisjoint(names)), None)
        if free is None:
            checks.append(free := [])
        free.append((it, changed))
    return checks


def check(crate, changed):
    """Checks a copy of a crate with these mutants, of which it checks the functions. Returns what the prover says."""
    command = [kit() / "bin" / "rattle", "check", *words(crate), "--jobs", "1"]
    command += ["--logic-built", kit() / "logic_built"]
    command += [word for _, names in changed for name in names for word in ("--only", name)]
    with tempfile.TemporaryDirectory(prefix="mutants-") as room:
        for part in PARTS:
            if (TOP / "crates" / crate / part).is_dir():
                shutil.copytree(TOP / "crates" / crate / part, Path(room, part))
        for mutant, _ in changed:
            for file, old, new in mutant.changes:
                path = Path(room, *Path(file).parts[2:])
                path.write_text(path.read_text().replace(old, new, 1))
        return call(command, cwd=room)[1]


def refusal(crate, name, said):
    """Whether the prover refuses the function by goals of its own, and its name with those goals, or why not."""
    line = re.search(rf"^fn {re.escape(crate)}::{re.escape(name)}: (.*)$", said, re.M)
    if not line:
        return False, f"{name} was not checked"
    if line[1].startswith("proved"):
        return False, f"{name} is proved"
    proof = re.escape(f"./proofs/{name.replace('::', '/')}/")
    # The reason often stands on the lines below the first.
    errors = re.findall(rf"^{proof}[^\n]*: error.*(?:\n[ \t].*)*", said, re.M)
    goals = re.findall(r"`([\w+-]+)`", line[1].partition("; it calls")[0].partition("did not prove")[2])
    goals += [GOAL.search(it)[1] for it in errors if not LOST.search(it)]
    # Where a proof has lost a name, a goal may stand open for that alone.
    if not any(LOST.search(it) for it in errors):
        goals += OPEN.findall(said[:line.start()].rpartition("\nfn ")[2])
    if goals:
        return True, ", ".join(dict.fromkeys([name, *goals]))
    return False, f"{name} is refused only {'for a name that its proof cites' if errors else 'for what it calls'}"


def tried(crate, mutants):
    """Tries the mutants of a crate. Yields for each whether it is refused, what that shows, and what the prover said."""
    for changed in checks_of(mutants):
        said = check(crate, changed)
        for mutant, names in changed:
            refusals = [refusal(crate, name, said) for name in names]
            telling = [shown for is_refused, shown in refusals if is_refused]
            yield mutant, bool(telling), "; ".join(telling or (shown for _, shown in refusals)), said
