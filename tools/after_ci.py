#!/usr/bin/env python3
"""Takes over what a `rt ci` that passed in this checkout has built, for the commands and the tests.

usage: tools/after_ci.py BEGAN        right after it; the file BEGAN was written before it began
       tools/after_ci.py BEGAN --own  the same where some crate had a folder out/ before

It records that the program is fresh, so that no command proves it again, and builds the archive of the library for C and Rust. `rt ci` proves a
static library and writes no archive. `rt lib` does, over libraries that it builds by itself, so that it would prove again what `rt ci` alone has
proved. So the archive is compiled here over the libraries that `rt ci` left, as `rt lib` would compile it. Where a crate had a folder out/ before,
`rt ci` puts the libraries of that folder back, which may be of other sources: then `rt lib` decides.
"""
import os
import subprocess
import sys

sys.dont_write_bytecode = True
ROOT = os.path.dirname(os.path.dirname(os.path.realpath(__file__)))
sys.path.insert(0, os.path.join(ROOT, "bin", "lib"))

from hiedukson import program  # noqa: E402


def compile_archive():
    """Compiles the archive over the libraries that stand in out/, by the module behind `rt lib`, and says whether that went well."""
    page = subprocess.run(["rt", "doc"], stdout=subprocess.PIPE, text=True, check=True).stdout.strip()
    sys.path.insert(0, os.path.join(os.path.dirname(page), "bin"))
    os.makedirs(os.path.dirname(program.LIBRARY.path), exist_ok=True)
    try:
        import rtlib

        rtlib.guarded()
        return rtlib.Crate(program.LIBRARY.folder, ROOT, {}).build_static([]) == 0
    except (Exception, SystemExit) as error:
        # (another kit's module may look otherwise; `rt lib` is the way that holds)
        print(f"the archive is built by rt lib: {error}")
        return False


def main(words):
    if not words or words[1:] not in ([], ["--own"]):
        sys.exit(__doc__)
    began = os.stat(words[0]).st_mtime_ns
    if not program.BUILT.take(began):
        sys.exit(f"{program.BUILT.shown} is not there, or a source has changed since rt ci began")
    if "--own" in words or not compile_archive():
        subprocess.run(program.LIBRARY.words, cwd=program.LIBRARY.folder, stdin=subprocess.DEVNULL, check=True)
    if not program.LIBRARY.take(began):
        sys.exit(f"{program.LIBRARY.shown} is not there, or a source has changed since rt ci began")


if __name__ == "__main__":
    main(sys.argv[1:])
