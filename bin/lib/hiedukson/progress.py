"""A long check, followed: one line of progress on a terminal, what the prover says in a file."""

import os
import re
import select
import subprocess
import sys
import time

# A check that ends sooner than this proved nothing, and is not talked about.
QUIET_SECONDS = 2
# So many bytes of sources are proved in a second, before anything is measured.
USUAL_RATE = 6_000
# The rate that was measured counts from this share of the whole on.
MEASURED_FROM = 0.1
LAST_LINES = 15

# At the end of a crate's check: how many of its modules were checked, none if nothing has changed; and that it is proved.
_CHECKED = re.compile(rb"^crate (\S+): modules loaded=\d+ checked=(\d+)")
_PROVED = b"logic=proved "


def follow(command, folder, log, weights, crates_of, say):
    """Run a check in a folder, its output in a log, and return its status. `weights` has how much there is to prove in
    each crate; `crates_of` gives a crate and those below it."""
    with open(log, "wb") as out:
        streams = {"stdin": subprocess.DEVNULL, "stdout": subprocess.PIPE, "stderr": subprocess.STDOUT}
        process = subprocess.Popen(command, cwd=folder, **streams)
        meter = Meter(weights, crates_of, log, say)
        try:
            _copy(process.stdout, out, meter)
        except BaseException:
            process.kill()
            raise
        finally:
            process.wait()
            meter.end()
    return process.returncode


def _copy(source, out, meter):
    """Copy all that is said, line by line to the meter, which is woken each second too."""
    rest = b""
    while True:
        ready, _, _ = select.select([source], [], [], 1)
        if ready:
            piece = os.read(source.fileno(), 1 << 16)
            if not piece:
                return
            out.write(piece)
            *lines, rest = (rest + piece).split(b"\n")
            for line in lines:
                meter.hear(line)
        meter.show()


class Meter:
    """How far a check is, by the crates that it has proved."""

    def __init__(self, weights, crates_of, log, say):
        self.weights = weights
        self.crates_of = crates_of
        self.log = os.path.relpath(log)
        self.say = say
        self.start = time.monotonic()
        # the crate whose check ends, and whether anything of it was checked
        self.last = None
        self.done = set()
        self.skipped = 0
        self.proved = 0
        self.is_terminal = sys.stderr is not None and sys.stderr.isatty()
        self.is_shown = False

    def hear(self, line):
        found = _CHECKED.match(line)
        if found:
            self.last = found.group(1).decode(), int(found.group(2)) > 0
        elif line.startswith(_PROVED) and self.last:
            crate, is_new = self.last
            self.last = None
            # Of a library that is built already nothing is said.
            below = {it for it in self.crates_of(crate) if it in self.weights} - self.done - {crate}
            self.skipped += sum(self.weights[it] for it in below)
            if is_new:
                self.proved += self.weights.get(crate, 0)
            else:
                self.skipped += self.weights.get(crate, 0)
            self.done |= below | {crate}

    def show(self):
        elapsed = time.monotonic() - self.start
        if elapsed < QUIET_SECONDS:
            return
        if self.is_terminal:
            sys.stderr.write(f"\r{self.line(elapsed)}\x1b[K")
            sys.stderr.flush()
        elif not self.is_shown:
            self.say(f"{self.line(elapsed)} (the prover's output is in {self.log})")
        self.is_shown = True

    def line(self, elapsed):
        crate = min(len(self.done) + 1, len(self.weights))
        left = self.left(elapsed)
        expected = f"about {duration(left)} more" if left >= 1 else "longer than expected"
        return f"proving: crate {crate} of {len(self.weights)}, {duration(elapsed)} so far, {expected}"

    def left(self, elapsed):
        """About how many seconds are left."""
        whole = sum(self.weights.values()) - self.skipped
        left = max(whole - self.proved, 0)
        if self.proved > whole * MEASURED_FROM:
            return left * elapsed / self.proved
        return max(left / USUAL_RATE - elapsed, 0)

    def end(self):
        if self.is_shown and self.is_terminal:
            sys.stderr.write("\r\x1b[K")
        if self.is_shown:
            self.say(f"the check took {duration(time.monotonic() - self.start)}")


def duration(seconds):
    minutes, seconds = divmod(int(seconds), 60)
    return f"{minutes} min {seconds} s" if minutes else f"{seconds} s"


def last_lines(log):
    with open(log, "rb") as said:
        lines = said.read().decode("utf-8", "replace").splitlines()
    return lines[-LAST_LINES:]
