"""What the commands share: the top of the repository, what passed and failed, and calls of other commands."""

import os
import signal
import subprocess
import sys
import threading
from pathlib import Path

TOP = Path(__file__).resolve().parents[2]

PRINTING = threading.Lock()


def say(line):
    """Prints a line at once, and whole, whatever other threads print meanwhile."""
    with PRINTING:
        print(line.rstrip("\n"), flush=True)


def usage(text, status=2):
    """Prints how a command is called, on standard error if the status is not 0, and ends it."""
    print(text.strip(), file=sys.stderr if status else sys.stdout)
    sys.exit(status)


def asked(text, *known):
    """Returns the words of the command line. Where one of them asks for help the command prints this text and ends. So it
    does, with status 2, where known lists of words are named and the words are none of them."""
    words = sys.argv[1:]
    if {"-h", "--help"} & set(words):
        usage(text, 0)
    return words if not known or words in known else usage(text)


class Tally:
    """How much of what a command looks at passed and failed."""

    def __init__(self, command):
        self.command, self.passed, self.failed = command, 0, 0

    def add(self, passed, failed):
        self.passed += passed
        self.failed += failed

    def look(self, fault):
        """Counts one check, and prints what is wrong with it, if anything is."""
        if fault:
            print(fault, flush=True)
        self.add(not fault, bool(fault))

    def end(self):
        """Prints the last line of the command. Returns its exit status."""
        print(f"{self.command}: {self.passed} passed, {self.failed} failed")
        return 1 if self.failed else 0


def call(words, limit=None, **how):
    """Calls a command. Returns whether it ended well, and all that it printed. At the limit, or where this command is
    interrupted, it is killed with all that it started."""
    how = {"stdin": subprocess.DEVNULL, "stdout": subprocess.PIPE, "stderr": subprocess.STDOUT, **how}
    try:
        ran = subprocess.Popen(words, process_group=0, **how)
    except OSError as fault:
        return False, str(fault)
    try:
        said, late = ran.communicate(timeout=limit)[0], ""
    except BaseException as cut:
        os.killpg(ran.pid, signal.SIGKILL)
        said, late = ran.communicate()[0], f"\nit took more than {limit} s"
        if not isinstance(cut, subprocess.TimeoutExpired):
            raise
    return ran.returncode == 0, said.decode(errors="replace") + late


def lanes():
    """How much may run at once: what RT_JOBS says, or as much as there are processors."""
    return int(os.environ.get("RT_JOBS") or len(os.sched_getaffinity(0)))


def tracked():
    """The files of the repository, by their names: those that git has or would take."""
    listed = subprocess.check_output(["git", "ls-files", "-co", "--exclude-standard"], cwd=TOP, text=True)
    return sorted(it for it in listed.splitlines() if (TOP / it).is_file())
