"""Debian's packages that a step needs beside the compilers."""

import os
import shutil

from harness.common import call

# Steps run side by side, and dpkg is used by one at a time.
PATIENCE = ["-o", "DPkg::Lock::Timeout=600"]


def lacking(wanted):
    """Returns those of the wanted packages that are not installed, after an attempt to install them."""
    left = not_installed(wanted)
    if left and os.geteuid() == 0 and shutil.which("apt-get"):
        for words in (["update"], ["install", "-y", "--no-install-recommends", *left]):
            call(["apt-get", "-q", *PATIENCE, *words], env={**os.environ, "DEBIAN_FRONTEND": "noninteractive"})
        left = not_installed(wanted)
    return left


def not_installed(wanted):
    """Returns those of the wanted packages that dpkg does not know as installed; none where there is no dpkg."""
    if not wanted or not shutil.which("dpkg-query"):
        return []
    _, said = call(["dpkg-query", "-W", "-f", "${Package} ${db:Status-Status}\n", *wanted])
    return [it for it in wanted if f"{it} installed" not in said.splitlines()]
