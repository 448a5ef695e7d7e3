"""The proved program: found, built when it is missing or stale, and run.

    Program(say)       the program of this copy; raises ProgramError where there is none to be had
    program.run(run)   what it prints for a run's bytes
    version()          the lines that say which program this is
    LIBRARY            the archive for C and Rust, of a repository

In a repository `rt` builds it (see `build`). An installed copy has it in a folder of its own, and needs nothing else.
"""

import os
import subprocess

from .build import ROOT, Built
from .errors import ProgramError

# (`rt run` also runs the program once, on nothing)
BUILT = Built("verdict", "verdict", ["rt", "run"])
LIBRARY = Built("tree_borrows", "libtree_borrows.a", ["rt", "lib"])
INSTALLED = os.path.join(ROOT, "program", "verdict")
INSTALLED_VERSION = os.path.join(ROOT, "VERSION")


class Program:
    def __init__(self, say=None):
        """`say` is given what is to be told while the program is built, a line at a time."""
        self.path = INSTALLED if is_installed() else BUILT.path_of(say or (lambda line: None))

    def run(self, run):
        """What the program prints for a run."""
        try:
            done = subprocess.run([self.path], input=run, stdout=subprocess.PIPE, stderr=subprocess.PIPE, check=False)
        except OSError as error:
            raise ProgramError(f"{self.path}: {error.strerror}") from None
        if done.returncode != 0:
            said = done.stderr.decode("utf-8", "replace").strip()
            raise ProgramError(f"the program ended with status {done.returncode}" + (f": {said}" if said else ""))
        return done.stdout


def is_installed():
    return os.path.exists(INSTALLED_VERSION)


def version():
    """Lines that say which program gives the verdicts: commit, toolchain, and the program's own sum."""
    if is_installed():
        with open(INSTALLED_VERSION, encoding="utf-8") as lines:
            return lines.read().splitlines()
    return [f"commit {_commit()}", f"toolchain {_toolchain()}", f"program {_sum()}"]


def _commit():
    commit = _output(["git", "-C", ROOT, "rev-parse", "HEAD"])
    if commit is None:
        return "unknown"
    changed = _output(["git", "-C", ROOT, "status", "--porcelain", "--", "crates", "crates.txt", "bin"])
    return f"{commit} with changes" if changed else commit


def _toolchain():
    return _output(["rt", "version"]) or "unknown: there is no rt"


def _sum():
    import hashlib

    if not os.path.exists(BUILT.path):
        return "not built yet"
    with open(BUILT.path, "rb") as program:
        digest = hashlib.sha256(program.read()).hexdigest()
    return f"sha256 {digest}" + ("" if BUILT.is_fresh else ", to be checked again: its sources may have changed")


def _output(words):
    """What a command prints; None where it fails."""
    silent = {"stdin": subprocess.DEVNULL, "stderr": subprocess.DEVNULL}
    try:
        done = subprocess.run(words, stdout=subprocess.PIPE, check=False, **silent)
    except OSError:
        return None
    return done.stdout.decode("utf-8", "replace").strip() if done.returncode == 0 else None
