"""What rt builds in a repository: built when it is missing, and built again when one of its sources has changed.

    Built(crate, name, words)   what the words of a command, in a crate's folder, leave under that name in its folder out
    built.path_of(say)          its path, once it is fresh; raises ProgramError where that cannot be had
    built.is_fresh              whether it is there, and built from the sources as they are
    built.take(began)           record that it is fresh: for what another command built from sources that are older than `began`

A record beside it has the path, size and time of every source from the last check, of `rt`, and of itself. Any
difference leads to a new check, which takes a second where nothing has to be proved. Where there is no `rt`, what
is older than one of its sources is refused.
"""

import fcntl
import os

from . import progress
from .errors import ProgramError

ROOT = os.path.dirname(os.path.dirname(os.path.dirname(os.path.dirname(os.path.realpath(__file__)))))
CRATES = os.path.join(ROOT, "crates.txt")
# Compiling a program takes as long as proving so many bytes of sources.
COMPILING = 400_000
# These folders of a crate have no part in what is built.
APART = ("must-fail", "out")


class Built:
    def __init__(self, crate, name, words):
        self.crate = crate
        self.words = words
        self.folder = os.path.join(ROOT, "crates", crate)
        self.path = os.path.join(self.folder, "out", name)
        self.shown = os.path.relpath(self.path, ROOT)
        self.record = self.path + ".sources"
        self.lock = os.path.join(ROOT, "target", crate + ".lock")
        self.log = os.path.join(ROOT, "target", "log", f"check-{crate}.out")

    @property
    def is_fresh(self):
        sources = self._sources()
        if self._is_recorded(sources):
            return True
        return which("rt") is None and os.path.exists(self.path) and self._newer(sources) is None

    def path_of(self, say):
        """The path, once it is fresh. `say` is given what is to be told meanwhile, a line at a time."""
        if not os.path.exists(CRATES):
            raise ProgramError(f"{ROOT} is neither a repository nor an installed copy: there is no {self.shown} in it")
        try:
            sources = self._sources()
            if not self._is_recorded(sources):
                self._check_age(sources) if which("rt") is None else self._build(say)
        except OSError as error:
            where = error.filename or "target"
            raise ProgramError(f"{self.shown} cannot be built: {where}: {error.strerror}") from None
        return self.path

    def take(self, began):
        """Record that it is fresh, and say whether it is: it is there, and no source is newer than `began`, in nanoseconds."""
        sources = self._sources()
        if not os.path.exists(self.path) or any(changed > began for _, _, changed in sources):
            return False
        self._write_record(_toolchain() + self._recorded(sources))
        return True

    def _sources(self):
        """Path, size and time of every source."""
        files = [_entry(CRATES)]
        for crate in crates_of(self.crate):
            files.extend(_files_below(os.path.join(ROOT, "crates", crate)))
        return files

    def _recorded(self, sources):
        """The record of these sources, and of what is built as it is."""
        built = [_entry(self.path)] if os.path.exists(self.path) else []
        return "".join(_line(entry) for entry in sources + built)

    def _is_recorded(self, sources):
        try:
            with open(self.record, encoding="utf-8") as record:
                toolchain = record.readline()
                is_same = record.read() == self._recorded(sources)
        except FileNotFoundError:
            return False
        return is_same and os.path.exists(self.path) and _toolchain() in ("", toolchain)

    def _check_age(self, sources):
        """Without rt: it must be there, and no source may be newer."""
        if not os.path.exists(self.path):
            raise ProgramError(f"{self.shown} is not built, and there is no rt to build it")
        newer = self._newer(sources)
        if newer:
            raise ProgramError(f"{self.shown} is older than {newer}, and there is no rt to build it again")

    def _newer(self, sources):
        """A source that is newer than what is built, by its path in the repository."""
        built = os.stat(self.path).st_mtime_ns
        return next((os.path.relpath(path, ROOT) for path, _, changed in sources if changed > built), None)

    def _build(self, say):
        """Build it, one command at a time, and record the sources that it was built from."""
        os.makedirs(os.path.dirname(self.log), exist_ok=True)
        with open(self.lock, "w", encoding="utf-8") as lock:
            fcntl.flock(lock, fcntl.LOCK_EX)
            sources = self._sources()
            if not self._is_recorded(sources):
                self._check(say)
                self._write_record(_toolchain() + self._recorded(sources))

    def _check(self, say):
        weights = {crate: _weight(crate) for crate in crates_of(self.crate)}
        status = progress.follow(self.words, self.folder, self.log, weights, crates_of, say)
        if status != 0 or not os.path.exists(self.path):
            for line in progress.last_lines(self.log):
                say("    " + line)
            log = os.path.relpath(self.log, ROOT)
            raise ProgramError(f"{self.shown} is not proved, rt ended with status {status}; {log} has all that it said")

    def _write_record(self, text):
        part = f"{self.record}.{os.getpid()}"
        with open(part, "w", encoding="utf-8") as record:
            record.write(text)
        os.replace(part, self.record)


def crates_of(name):
    """The crates that a crate is made of, itself among them, as crates.txt lists them."""
    needs = {}
    with open(CRATES, encoding="utf-8") as lines:
        for line in lines:
            # (words behind a crate's name, before the colon, say what it is: `staticlib`)
            crate, _, rest = line.split("#")[0].partition(":")
            if crate.strip():
                needs[crate.split()[0]] = rest.split()
    reached = []
    todo = [name]
    while todo:
        crate = todo.pop()
        if crate in needs and crate not in reached:
            reached.append(crate)
            todo.extend(needs[crate])
    return sorted(reached)


def _toolchain():
    """The record's line of rt; empty where there is none, which has no say then."""
    rt = which("rt")
    return _line(_entry(os.path.realpath(rt))) if rt else ""


def _line(entry):
    path, size, time = entry
    return f"{os.path.relpath(path, ROOT)} {size} {time}\n"


def _entry(path):
    status = os.stat(path)
    return path, status.st_size, status.st_mtime_ns


def _files_below(folder):
    found = []
    try:
        entries = sorted(os.scandir(folder), key=lambda entry: entry.name)
    except FileNotFoundError:
        return found
    for entry in entries:
        if entry.is_dir():
            if entry.name not in APART:
                found.extend(_files_below(entry.path))
        else:
            status = entry.stat()
            found.append((entry.path, status.st_size, status.st_mtime_ns))
    return found


def _weight(crate):
    """How much there is to prove in a crate, by the size of its files; a program is compiled as well."""
    folder = os.path.join(ROOT, "crates", crate)
    compiled = COMPILING if os.path.exists(os.path.join(folder, "src", "main.rt")) else 0
    return compiled + sum(size for _, size, _ in _files_below(folder))


def which(name):
    """The path of a command that can be run; None where there is none."""
    for folder in os.environ.get("PATH", os.defpath).split(os.pathsep):
        path = os.path.join(folder, name)
        if os.path.isfile(path) and os.access(path, os.X_OK):
            return path
    return None
