"""Runs cargo without a network: its crates are those of Debian's packages, as a directory source."""

import os
import shutil
from pathlib import Path

from harness import packages
from harness.common import TOP, call

DEBIAN = Path("/usr/share/cargo/registry")
CONFIG = ("--config", Path(__file__).with_name("debian.toml"))
# The packages that the crates of `rust` are built with.
CRATES = (
    "bytes clap clap-complete futures-core hex hyper openssl prometheus rand serde serde-json sha2 tokio tokio-openssl toml tracing "
    "tracing-subscriber"
)
PACKAGES = [*(f"librust-{it}-dev" for it in CRATES.split()), "libssl-dev", "pkg-config"]


def cargo(command, words, env, limit, cwd=TOP / "rust"):
    """Calls cargo, which asks no network. Returns whether it succeeded, and what it printed."""
    # Looked at now: `lacking` may have installed the packages meanwhile.
    config = CONFIG if DEBIAN.exists() else ()
    offline = () if command == "fmt" else ("--offline", *config)
    return call(["cargo", command, *offline, *words], limit, cwd=cwd, env=env)


def without_toolchain(**more):
    """The environment of who has no toolchain: no folder of programs has `rt`."""
    folders = os.environ["PATH"].split(os.pathsep)
    path = os.pathsep.join(it for it in folders if not (Path(it) / "rt").exists())
    others = {name: value for name, value in os.environ.items() if name != "BROADCAST_C_LIB"}
    return {**others, "PATH": path, **more}


def lacking():
    """What cargo lacks, in words, or `None`. Packages that are not there are installed, if that is allowed."""
    if not shutil.which("cargo"):
        return "cargo is not found"
    left = packages.lacking(PACKAGES)
    return f"not installed: {' '.join(left)}" if left else None
