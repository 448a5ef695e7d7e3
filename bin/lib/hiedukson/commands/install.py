"""install [--no-library] PREFIX: install the commands, the proved program, the library and the pages.

  PREFIX/bin/               the commands, as links into PREFIX/libexec/hiedukson
  PREFIX/libexec/hiedukson  the commands, what they share, the proved program, and which commit it is of
  PREFIX/lib, PREFIX/include  the library for C and Rust: libtree_borrows.a and tree_borrows.h
  PREFIX/share/man/man1     the manual's pages
  PREFIX/share/doc/hiedukson  documents: the notation, the format, licences

  --no-library      leave the library and its header out; building them takes some minutes
  --help            this text
  --version         commit, toolchain and sum of the proved program

What is installed needs Python 3 and neither this repository nor rt. Each file is replaced whole.
Exit status: 0 installed, 2 an error.
"""

import getopt
import os
import shutil

from .. import command, program
from ..build import ROOT
from ..errors import ProgramError

APART = ("install", "lib")
DOCUMENTS = ("docs/CARDS.md", "docs/FORMAT.md", "NOTICE", "LICENSE-APACHE", "LICENSE-MIT")
HEADER = "include/tree_borrows.h"


def main(cmd, arguments):
    try:
        options, words = getopt.gnu_getopt(arguments, "", ["no-library", "help", "version"])
    except getopt.GetoptError as error:
        raise command.UsageError(error) from None
    given = {name for name, _ in options}
    if "--help" in given:
        cmd.write(__doc__.encode())
        return command.OK
    if "--version" in given:
        cmd.version()
        return command.OK
    if len(words) != 1 or not words[0]:
        raise command.UsageError("one folder is wanted, such as /usr/local")
    if program.is_installed():
        raise ProgramError("this is an installed copy: install from the repository")
    if os.path.realpath(words[0]) == ROOT:
        raise ProgramError("the repository itself is no place to install to: its own commands would be replaced")
    built = program.Program(cmd.say).path
    library = None if "--no-library" in given else program.LIBRARY.path_of(cmd.say)
    try:
        install(os.path.abspath(words[0]), built, library)
    except OSError as error:
        raise ProgramError(f"{error.filename or words[0]}: {error.strerror}") from None
    return command.OK


def install(prefix, built, library):
    """Install all of it below a folder. The commands come last, when all that they need is there."""
    if library:
        put(library, f"{prefix}/lib/libtree_borrows.a")
        if os.path.exists(os.path.join(ROOT, HEADER)):
            put(os.path.join(ROOT, HEADER), f"{prefix}/{HEADER}")
    for page in sorted(os.listdir(os.path.join(ROOT, "man"))):
        put(os.path.join(ROOT, "man", page), f"{prefix}/share/man/man1/{page}")
    for document in DOCUMENTS:
        if os.path.exists(os.path.join(ROOT, document)):
            put(os.path.join(ROOT, document), f"{prefix}/share/doc/hiedukson/{os.path.basename(document)}")
    put_folder(f"{prefix}/libexec/hiedukson", built)
    for name in commands():
        put_link(f"../libexec/hiedukson/bin/{name}", f"{prefix}/bin/{name}")


def commands():
    """The names of the commands that are installed."""
    return sorted(name for name in os.listdir(os.path.join(ROOT, "bin")) if name not in APART)


def put(source, target):
    """A file, replaced whole."""
    os.makedirs(os.path.dirname(target), exist_ok=True)
    part = f"{target}.{os.getpid()}.part"
    shutil.copyfile(source, part)
    os.chmod(part, 0o755 if os.access(source, os.X_OK) else 0o644)
    os.replace(part, target)


def put_link(source, target):
    os.makedirs(os.path.dirname(target), exist_ok=True)
    part = f"{target}.{os.getpid()}.part"
    os.symlink(source, part)
    os.replace(part, target)


def put_folder(target, built):
    """The folder of the commands: made beside the old one, and then put in its place."""
    new = f"{target}.{os.getpid()}.new"
    old = f"{target}.{os.getpid()}.old"
    shutil.rmtree(new, ignore_errors=True)
    for name in commands():
        put(os.path.join(ROOT, "bin", name), f"{new}/bin/{name}")
    shutil.copytree(os.path.join(ROOT, "bin", "lib"), f"{new}/bin/lib", ignore=shutil.ignore_patterns("__pycache__"))
    put(built, f"{new}/program/verdict")
    with open(f"{new}/VERSION", "w", encoding="utf-8") as file:
        file.write("".join(f"{line}\n" for line in program.version()))
    if os.path.exists(target):
        os.rename(target, old)
    os.rename(new, target)
    shutil.rmtree(old, ignore_errors=True)
