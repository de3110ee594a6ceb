"""The static library for the targets that the repository keeps it for, of one module of LLVM.

The toolchain compiles the proved crate by its clang, from a module that names x86-64 Linux. All numbers, addresses and calls
in it are those of any 64-bit processor with the lowest byte first, so the module without these names is compiled for each
other target, by the same clang and with the same words. The words that a target needs are those with which the
toolchain itself compiles for its processor."""

import re
import shutil
import tempfile
from concurrent.futures import ThreadPoolExecutor
from dataclasses import dataclass
from pathlib import Path

from harness.common import call, lanes
from harness.libraries import kit
from harness.objects import symbols

# Writes a module as text, in which all is in its order.
PRINT = """-x ir -S -emit-llvm -O0 -Xclang -emit-llvm-uselists -Xclang -disable-llvm-passes module.bc -o printed.ll""".split()
# What an object may need of others: of libc, of the compiler's own library, and of the caller.
NEEDED = {
    "memcpy", "memmove", "memset", "bzero", "__bzero", "__udivti3",
    "rattle_alloc", "rattle_realloc", "rattle_dealloc",
}
# The toolchain's own words for AArch64, and one without which an atomic operation is a call of the compiler's library.
AARCH64 = ("-march=armv8-a", "-mllvm", "-aarch64-load-store-renaming=false", "-mno-outline-atomics")


@dataclass(frozen=True)
class Target:
    """What clang calls a target, the words that name its processor if it is another one, and the form of its archives."""

    triple: str
    words: tuple = ()
    archive: str = "gnu"


# The toolchain's own.
OWN = "x86_64-unknown-linux-gnu"
# By Rust's names. The versions of Apple's systems are the least ones that Rust supports.
TARGETS = {
    OWN: Target("x86_64-unknown-linux-gnu"),
    "x86_64-unknown-linux-musl": Target("x86_64-unknown-linux-musl"),
    "x86_64-apple-darwin": Target("x86_64-apple-macosx10.12.0", archive="darwin"),
    "aarch64-unknown-linux-gnu": Target("aarch64-unknown-linux-gnu", AARCH64),
    "aarch64-unknown-linux-musl": Target("aarch64-unknown-linux-musl", AARCH64),
    "aarch64-apple-darwin": Target("arm64-apple-macosx11.0.0", AARCH64, "darwin"),
}


class Unfit(Exception):
    """Why a module is not compiled for other targets."""


def clang(words, room):
    """Calls the toolchain's clang in a folder."""
    is_well, said = call([kit() / "toolchain" / "bin" / "clang", *words], 900, cwd=room)
    if not is_well:
        raise Unfit(f"clang {' '.join(words)}:\n{said[-2000:]}")


def without_target(text):
    """Returns the text of a module without its layout of data: clang takes that of the target.

    Only what means the same for each target may be in a module: no numbers with a point, no instruction of a processor, and
    between it and C no short argument that a side extends, since the sides differ in that."""
    code = re.sub(r'"[^"\n]*"', '""', text)
    unfit = re.findall(r"\b(?:float|double|half|bfloat|fp128|x86_fp80|ppc_fp128|x86_mmx|llvm\.x86\.\w+)\b", code)
    unfit += [it for it in re.findall(r"(?<!-)\basm\b.*", text) if it != 'asm sideeffect "", "~{memory}"()']
    unfit += re.findall(r"^(?:declare|define (?!internal ))[^{\n]*\b(?:zeroext|signext|byval|sret)\b[^{\n]*", text, re.M)
    if unfit:
        raise Unfit(f"the module has {unfit[0]}")
    return re.sub(r"^target datalayout = .*\n", "", text, flags=re.M)


def words_for(target, words):
    """Returns the words of clang for a target: those for x86-64 Linux, but for what names that."""
    named = ("--target=", "--sysroot=", *(["-march="] if target.words else []))
    kept = [it for it in words if not it.startswith(named)]
    return [f"--target={target.triple}", *target.words, *kept]


def compiled(target, text, words, room):
    """Compiles the text of a module, and returns the archive."""
    text = re.sub(r'^target triple = ".*"', f'target triple = "{target.triple}"', text, flags=re.M)
    if target.words:
        text = text.replace('"target-cpu"="x86-64-v2"', '"target-cpu"="generic"')
        text = text.replace('"probe-stack"=', '"frame-pointer"="non-leaf" "probe-stack"=')
    room.mkdir()
    (room / "module.ll").write_text(text)
    clang(["module.ll" if it == "module.bc" else it for it in words_for(target, words)], room)
    return archive(target, (room / "module.o").read_bytes(), room)


def archive(target, member, room):
    """Returns an archive of one object, which needs of others what the library may need."""
    defined, needed = symbols(member)
    odd = sorted({it for it in defined if not it.startswith("broadcast_")} | needed - NEEDED)
    if odd:
        raise Unfit(f"the object for {target.triple} defines or needs {' '.join(odd)}")
    (room / "broadcast_c.o").write_bytes(member)
    form = f"--format={target.archive}"
    is_well, said = call([kit() / "toolchain" / "bin" / "llvm-ar", form, "rcsD", "library.a", "broadcast_c.o"], cwd=room)
    if not is_well:
        raise Unfit(f"llvm-ar: {said}")
    return (room / "library.a").read_bytes()


def libraries(module, words):
    """Compiles a module for each target. Returns the archives by the names of the targets."""
    with tempfile.TemporaryDirectory() as folder, ThreadPoolExecutor(lanes()) as pool:
        room = Path(folder)
        shutil.copy(module, room / "module.bc")
        clang([f"--target={TARGETS[OWN].triple}", *PRINT], room)
        text = without_target((room / "printed.ll").read_text())
        made = pool.map(lambda it: compiled(TARGETS[it], text, words, room / it), TARGETS)
        return dict(zip(TARGETS, made))
