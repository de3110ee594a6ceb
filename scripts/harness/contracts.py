"""The clauses of a crate's public functions, and the ghost members of its types, by the layout of `rt fmt`."""

import re
from functools import lru_cache

ITEM = re.compile(r"^(pub )?(?:unsafe )?(impl|trait|struct|enum|fn)\b")
FUNCTION = re.compile(r'^( *)(pub )?(?:const |unsafe )*(extern "C" )?fn (\w+)')
USE = re.compile(r"ghost use Rattle\.(\w+)\.specs\.(\w+)\.\{([^}]*)\};")
CLAUSE = re.compile(r"\s*(?:requires|ensures)\b")
GHOST = re.compile(r"\s+(?:pub )?ghost (?!use\b)")
# The prover checks it of each value, so that no reader believes it.
INVARIANT = re.compile(r"\s+ghost invariant\b")
GIVEN_OUT = re.compile(r"pub use [\w:]+?(?:::\{([^}]*)\}|::(\w+));")


def names_of(text):
    return {it.strip().split(" as ")[0].split("::")[-1] for it in text.split(",") if it.strip()}


def owner_of(head):
    """Returns the name of the type of an `impl`, or of a trait, or none of a tuple."""
    before, head = None, head.split("{")[0].replace("->", "")
    while before != head:
        before, head = head, re.sub(r"<[^<>]*>", "", head)
    said = re.split(r"\bwhere\b|(?<!:):(?!:)", head)[0]
    return (re.findall(r"\w+", said.split(" for ")[-1]) or [None])[-1]


def ghosts_among(lines, with_invariants=False):
    """Returns those lines that are of ghost members, of which a reader believes all but invariants."""
    found, depth, member = [], 0, None
    for line in lines:
        if member is None and GHOST.match(line):
            member, depth = with_invariants or not INVARIANT.match(line), 0
        if member is not None:
            found += [line] if member else []
            depth += sum(map(line.count, "{([")) - sum(map(line.count, "})]"))
            member = member if depth > 0 or not line.endswith((";", ",", "}")) else None
    return found


class Source:
    def __init__(self, path):
        self.text = re.sub(r"//[^\n]*", "", path.read_text())
        self.lines = self.text.splitlines()
        # Each name of a definition that the file uses, with its crate and file of `specs`.
        self.uses = {}
        for crate, file, names in USE.findall(self.text):
            for name in filter(None, (it.strip() for it in names.split(","))):
                self.uses.setdefault(name.split(" as ")[-1].strip(), set()).add((crate, file))
        self.given_out = {it for many, one in GIVEN_OUT.findall(self.text) for it in names_of(many or one)}

    def functions(self):
        """Yields, of each function, the type or trait that it belongs to (none of a free one), whether its own line makes it
        public, its name, its head and its clauses."""
        owner, is_trait = None, False
        for k, line in enumerate(self.lines):
            item = ITEM.match(line)
            if item and item[2] in ("impl", "trait"):
                head = " ".join(self.lines[k : k + 40])
                owner, is_trait = owner_of(head), item[2] == "trait" or " for " in head.split("{")[0]
            elif line == "}":
                owner, is_trait = None, False
            found = FUNCTION.match(line)
            if found and not line.endswith((" {", "{}")):
                yield owner, bool(found[2] or found[3] or is_trait), found[4], *self.contract(k, found[1])

    def contract(self, start, indent):
        """Returns the head of the function that begins at this line, and its clauses."""
        for k in range(start + 1, len(self.lines)):
            if self.lines[k].startswith((indent + "{", indent + "}")) or self.lines[k].endswith(";"):
                end = k + self.lines[k].endswith(";")
                first = next((it for it in range(start + 1, end) if CLAUSE.match(self.lines[it])), end)
                return "\n".join(self.lines[start:first]), "\n".join(self.lines[first:end])
        return "", ""

    def items(self):
        """Yields the name of each type or trait that is declared or implemented, and the item's lines."""
        start = name = None
        for k, line in enumerate(self.lines):
            item = ITEM.match(line)
            if item and item[2] != "fn":
                declared = re.match(r"\s*(\w+)", line[item.end() :])
                start, name = k, owner_of(" ".join(self.lines[k : k + 40])) if item[2] == "impl" else declared[1]
            if start is not None and (line == "}" or k == start and line.endswith(("}", ";"))):
                yield name, self.lines[start : k + 1]
                start = None


@lru_cache(None)
def sources_of(folder):
    return {it: Source(it) for it in sorted((folder / "src").rglob("*.rt"))}


def public_clauses(folder):
    """Yields each public function of the crate in this folder, with its head, its clauses and what its file uses."""
    root = next((it for it in (folder / "src/lib.rt", folder / "src/main.rt") if it.exists()), None)
    sources = sources_of(folder)
    given = {name for it in sources.values() for name in it.given_out}

    def open_modules(path, inside):
        yield path
        for name in re.findall(r"^pub mod (\w+);", sources[path].text, re.M):
            below = inside / f"{name}.rt"
            if below in sources:
                yield from open_modules(below, inside / name)

    for path in open_modules(root, folder / "src") if root else []:
        given.update(re.findall(r"^pub (?:struct|enum|trait|fn) (\w+)", sources[path].text, re.M))
    for source in sources.values():
        for owner, is_public, name, head, clauses in source.functions():
            if is_public and (owner or name) in given or 'extern "C" fn ' + name in source.text:
                yield f"{owner}::{name}" if owner else name, head, clauses, source.uses


@lru_cache(None)
def members_of(folder):
    """Returns the types and traits that the crate in this folder declares or implements: the name, the text that says what
    it is made of (the fields of a type, else the head and the ghost members), the lines of its ghost members, and what its
    file uses."""
    found = []
    for source in sources_of(folder).values():
        for name, lines in source.items():
            ghosts = ghosts_among(lines)
            is_type = re.match(r"(?:pub )?(?:struct|enum)\b", lines[0])
            head = lines[: next((k for k, it in enumerate(lines) if it.endswith("{")), 0) + 1]
            found.append((name, "\n".join(lines if is_type else [*head, *ghosts]), ghosts, source.uses))
    return found


def sizes_of(folder):
    """Returns the lines of code of the crate in this folder, and those of clauses and ghost members, without imports of
    definitions and blank lines."""
    code = contracts = 0
    for source in sources_of(folder).values():
        lines = sum(bool(it.strip()) and "ghost use " not in it for it in source.lines)
        ghosts = sum(len(ghosts_among(it, with_invariants=True)) for _, it in source.items())
        here = ghosts + sum(len(clauses.splitlines()) for *_, clauses in source.functions())
        code, contracts = code + lines - here, contracts + here
    return code, contracts
