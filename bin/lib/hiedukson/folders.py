"""Folders that are replaced whole.

    check(path, is_ours)            raise a CardError where the folder may not be replaced
    replace(path, files, is_ours)   write files into a folder, in place of what was there
"""

import os
import shutil
import tempfile

from .command import printable
from .errors import CardError


def check(path, is_ours):
    """A folder may be replaced if it is missing, in a folder that is there, or empty, or `is_ours` knows it."""
    try:
        if not os.path.lexists(path):
            os.stat(os.path.dirname(os.path.abspath(path)))
            return
        if not os.path.isdir(path) or os.path.islink(path):
            raise CardError(f"{printable(path)}: not a folder")
        if os.listdir(path) and not is_ours(path):
            raise CardError(f"{printable(path)}: the folder has other files in it, and is left as it is")
    except OSError as error:
        raise CardError(f"{printable(path)}: {error.strerror}") from None


def replace(path, files, is_ours):
    """Write files, a dictionary from paths to bytes, into a folder that may be replaced. What stood there
    stays until all is written."""
    path = os.path.abspath(path)
    check(path, is_ours)
    part = None
    try:
        part = tempfile.mkdtemp(prefix=".", suffix=".part", dir=os.path.dirname(path))
        for name, data in files.items():
            _write(os.path.join(part, name), data)
        _open_to_all(part)
        _exchange(path, part)
    except OSError as error:
        raise CardError(f"{printable(path)}: {error.strerror}") from None
    finally:
        if part is not None:
            shutil.rmtree(part, ignore_errors=True)


def _write(path, data):
    os.makedirs(os.path.dirname(path), exist_ok=True)
    with open(path, "wb") as file:
        file.write(data)


def _open_to_all(folder):
    """The mode of a folder that is made in the usual way."""
    mask = os.umask(0)
    os.umask(mask)
    os.chmod(folder, 0o777 & ~mask)


def _exchange(path, part):
    """Put the new folder in the place of the old one, which is put back where that fails."""
    old = part + ".old"
    if not os.path.lexists(path):
        os.rename(part, path)
        return
    os.rename(path, old)
    try:
        os.rename(part, path)
    except OSError:
        os.rename(old, path)
        raise
    shutil.rmtree(old, ignore_errors=True)
