"""The wrong bodies of `mutants/`, and their places in the sources."""

import re
from dataclasses import dataclass, replace

from harness.common import TOP


@dataclass(frozen=True)
class Mutant:
    """A wrong body: why it is wrong, what refuses it, its old and new texts, the one with which it is chosen, and whether
    the gate tries it."""

    crate: str
    name: str
    why: str
    by: tuple
    changes: tuple
    over: str | None = None
    is_of_gate: bool = False

    @property
    def label(self):
        return f"{self.crate}/{self.name}"

    @property
    def is_of_prover(self):
        return self.by == (("prover",),)

    def choosing(self, is_chosen):
        """The mutant with what tells whether it is chosen in the place of WRONG."""
        changes = ((file, old, re.sub(r"\bWRONG\b", is_chosen, new)) for file, old, new in self.changes)
        return replace(self, changes=tuple(changes))

    def is_meant(self, words):
        return not words or any(it in (self.crate, self.name, self.label) for it in words)


def parsed(crate, lines):
    """The mutant of a block, which begins with its name."""
    said, why, file, changes = {"by": [], "over": [None], "tried": []}, [], None, []
    for line in lines[1:]:
        word, _, text = line.partition(": ")
        if word in said:
            said[word].append(tuple(text.split(" ")) if word == "by" else text)
        elif word == "file":
            file = text
        elif line[:1] == "-":
            if not changes or changes[-1][2]:
                changes.append((file, [], []))
            changes[-1][1].append(line[2:])
        elif line[:1] == "+":
            changes[-1][2].append(line[2:])
        elif line:
            why.append(line)
    changes = tuple((file, "\n".join(old), "\n".join(new)) for file, old, new in changes)
    return Mutant(crate, lines[0], " ".join(why), tuple(said["by"]), changes, said["over"][-1], said["tried"] == ["gate"])


def read_all(folder="mutants"):
    """All mutants of a folder, by file and name."""
    found = []
    for path in sorted((TOP / folder).glob("*.txt")):
        for block in re.split(r"^## ", path.read_text(), flags=re.M)[1:]:
            found.append(parsed(path.stem, block.splitlines()))
    return found


def misplaced(mutant, texts):
    """What is wrong with the places of the mutant in these texts, by file; else `None`, and it is put there."""
    for file, old, new in mutant.changes:
        if file not in texts:
            texts[file] = (TOP / file).read_text() if (TOP / file).is_file() else ""
        if texts[file].count(old) != 1:
            return f"{mutant.label}: {old!r} stands {texts[file].count(old)} times in {file}"
        texts[file] = texts[file].replace(old, new)
    return None if mutant.changes and mutant.by and mutant.why else f"{mutant.label} lacks a part"


def faults_of_places(mutants):
    """Yields, of each wrong body, what is wrong with its places, or `None`: each text stands once in its file. Those of
    the tests are looked at side by side, those of the prover and of `mutants/rust` by themselves."""
    beside = {}
    for it in mutants:
        yield misplaced(it, {} if it.is_of_prover else beside)
    for it in read_all("mutants/rust"):
        yield misplaced(it, {})
