"""The functions, structs and codes of the border, as Rattle, C and Rust declare them."""

import re
from dataclasses import dataclass

from harness.common import TOP

EXPORTS = TOP / "crates" / "broadcast_c" / "src"
CORE = TOP / "crates" / "broadcast_core" / "src"
GOSSIP = [TOP / "crates" / "gossip" / "src" / it for it in ("span.rt", "message.rt", "bucket.rt")]
HEADER = TOP / "ffi" / "broadcast_c.h"
RUST = TOP / "rust" / "broadcast-node" / "src"

# What the structs are called in C. In Rust they have the names of Rattle.
STRUCTS = {
    "StoreHandle": "broadcast_store", "LogHandle": "broadcast_log", "Message": "broadcast_message", "Name": "broadcast_name", "Stored": "broadcast_stored",
    "Counts": "broadcast_counts", "Counters": "broadcast_counters", "Place": "broadcast_place",
    "Span": "broadcast_span", "Bucket": "broadcast_bucket",
}
# What Rust calls the types that cross as their one field, and what each is.
TRANSPARENT = {
    "Key": ("Name", "pub struct Key([u8; Key::MAX_LEN + 1]);"),
    "Digest": ("[u8; 32]", "pub struct Digest([u8; Digest::LEN]);"),
    "Ticket": ("u64", "pub struct Ticket(pub(crate) u64);"),
}
# What the other types are called in C; no type is that of a function without a result.
SCALARS = {
    "u8": "uint8_t", "u32": "uint32_t", "u64": "uint64_t", "usize": "size_t", "bool": "bool",
    "*mut ()": "void *", "": "void",
}
# The structs that cross as their bytes, and where they are declared.
BYTES = {"Digest": "digest.rt"}
BYTES_STRUCT = r"#\[repr\(C\)\]\n#\[derive[^\n]*\npub struct %s \{[^}]*?pub bytes: (\[u8; \d+\]),\n\}"
FUNCTION = r"fn (\w+)\(([^{}]*?)\)(?: -> (\w+))?"


CODE = re.compile(r"^pub const (\w+): u32 = (\d+);", re.M)
# The code that C has as a macro, so that a preprocessor can compare it.
MACRO = "VERSION"
ARRAY = re.compile(r"\[(\w+); (\d+)\]")


@dataclass(frozen=True)
class Texts:
    """What is compared."""

    exports: str
    header: str
    rust: str

    @staticmethod
    def read():
        exports = "\n".join(file.read_text() for file in (*sorted(EXPORTS.rglob("*.rt")), *GOSSIP))
        for name, file in BYTES.items():
            it = re.search(BYTES_STRUCT % name, (CORE / file).read_text())[1]
            exports = re.sub(rf"&(mut )?{name}\b", rf"&\1{it}", exports)
            exports = re.sub(rf"&(mut )?\[{name}\]", rf"&\1[{it}]", exports)
        names = ("raw.rs", "key.rs", "tickets.rs", "coverage.rs", "log.rs", "bucket.rs", "node/books.rs")
        rust = "\n".join((RUST / it).read_text() for it in names)
        return Texts(exports, HEADER.read_text(), rust)


def without_comments(text):
    return re.sub(r"/\*.*?\*/|//[^\n]*", "", text, flags=re.S)


def evened(text):
    """The text with even spaces, and none where none is needed."""
    return re.sub(r"\s*([(),*\[\]{};:&])\s*", r"\1", re.sub(r"\s+", " ", text)).strip()


def exported(text):
    """Each exported function: its name, its parameters with their types, and its result. `Global` crosses as nothing."""
    for name, inside, result in re.findall(r'pub extern "C" ' + FUNCTION, text, re.S):
        given = [re.sub(r"\s+", " ", it).strip().split(": ", 1) for it in inside.split(",") if it.strip()]
        yield name, [it for it in given if it[1] != "Global"], result


def fields(text, name):
    """The fields of a struct with their types, without ghost ones; none if there is no such struct."""
    found = re.search(rf"#\[repr\(C\)\]\n(?:#\[[^\n]*\n)*pub struct {name} \{{(.*?)\n\}}", text, re.S)
    inside = re.sub(r"^\s*(pub )?ghost .*$", "", found[1], flags=re.M) if found else ""
    return re.findall(r"^\s*(?:pub )?(\w+): ([^,\n]+),", inside, re.M)


def in_c(name, kind):
    """The parameters of C that one of Rattle crosses as."""
    if not kind.startswith("&"):
        return [f"{SCALARS[kind]} {name}"]
    const = "" if kind.startswith("&mut ") else "const "
    to = re.sub(r"^&(mut )?", "", kind)
    if array := ARRAY.fullmatch(to):
        return [f"{const}{SCALARS[array[1]]} {name}[{array[2]}]"]
    item = to.removeprefix("[").removesuffix("]") if to.startswith("[") else to
    if array := ARRAY.fullmatch(item):
        pointer = f"{const}{SCALARS[array[1]]} (*{name})[{array[2]}]"
    else:
        pointer = f"{const}{STRUCTS.get(item) or SCALARS[item]} *{name}"
    return [pointer, f"size_t {name}_len"] if to.startswith("[") else [pointer]


def field_in_c(name, kind):
    array = ARRAY.fullmatch(kind)
    return f"{SCALARS[array[1]]} {name}[{array[2]}];" if array else f"{SCALARS[kind]} {name};"


def in_rust(name, kind):
    """The parameters of Rust that one of Rattle crosses as. A length has any name."""
    if found := re.fullmatch(r"&(mut )?\[(\[\w+; \d+\]|\w+)\]", kind):
        return f"{name}: *{'mut' if found[1] else 'const'} {found[2]}, _: usize"
    return f"{name}: {kind}"


def wanted_in_c(exports):
    for name, given, result in exported(exports):
        parameters = ", ".join(it for param in given for it in in_c(*param)) or "void"
        yield f"{SCALARS[result]} {name}({parameters});"
    for name, short in STRUCTS.items():
        yield f"typedef struct {{ {''.join(field_in_c(*it) for it in fields(exports, name))} }} {short};"
    for name, number in CODE.findall(exports):
        yield f"#define BROADCAST_{name} {number}" if name == MACRO else f"BROADCAST_{name} = {number}"


def declared_in_c(header):
    header = without_comments(header)
    yield from re.findall(r"^(?!typedef\b)[a-z][\w *]*\([^;{]*;", header, re.M)
    yield from re.findall(r"typedef struct \{[^}]*\} \w+;", header)
    yield from re.findall(r"^\s*(BROADCAST_\w+ = \d+|#define BROADCAST_\w+ \d+)\b", header, re.M)


def wanted_in_rust(exports):
    for name, given, result in exported(exports):
        yield f"fn {name}({', '.join(in_rust(*it) for it in given)}) -> {result}"
    for name in STRUCTS:
        own = [f"{at}: {kind.replace('*mut ()', '*mut c_void')}" for at, kind in fields(exports, name)]
        yield f"struct {name} {{ {', '.join(own)} }}"
    yield from (f"{name} = {number}" for name, number in CODE.findall(exports))
    yield from (declared for _, declared in TRANSPARENT.values())


def declared_in_rust(rust):
    rust = without_comments(rust)
    yield from re.findall(r"#\[repr\(transparent\)\]\n(.*)", rust)
    for name, (kind, _) in TRANSPARENT.items():
        rust = re.sub(rf"(&|&mut |\*const |\*mut ){name}\b", rf"\1{kind}", rust)
    for name, inside, result in re.findall(FUNCTION + ";", rust, re.S):
        inside = re.sub(r"(\*(?:const|mut) [^,]*, )\w+: usize", r"\1_: usize", " ".join(inside.split()).rstrip(","))
        yield f"fn {name}({inside}) -> {result}"
    for name in STRUCTS:
        own = [f"{at}: {kind}" for at, kind in fields(rust, name)]
        if own:
            yield f"struct {name} {{ {', '.join(own)} }}"
    yield from (f"{name} = {number}" for name, number in CODE.findall(rust))


def differences(texts):
    """What C and Rust declare otherwise than Rattle does. Rust need not declare all."""
    wanted, declared = ({evened(it) for it in of} for of in (wanted_in_c(texts.exports), declared_in_c(texts.header)))
    found = [f"the header lacks {it}" for it in sorted(wanted - declared)]
    found += [f"the header has {it}" for it in sorted(declared - wanted)]
    wanted, declared = ({evened(it) for it in of} for of in (wanted_in_rust(texts.exports), declared_in_rust(texts.rust)))
    found += [f"the Rust crate has {it}" for it in sorted(declared - wanted)]
    found += [f"the Rust crate lacks {it}" for _, it in TRANSPARENT.values() if evened(it) not in declared]
    return found if any(it.startswith("fn ") for it in declared) else [*found, "the Rust crate declares nothing"]
