"""The libraries that `rt ci` proved on this machine, one of each crate, beside what passed (tests/kept.py).

Each lies in a folder of the crate's name, with the key of the crate's pass and a checksum of its files. One of
another key, a damaged one, a folder that can't be written and no folder at all are the same as no library, and no
error is told. Where the variable TUNKHAZEL_ANEW is set none is found.
"""
import hashlib
import os
import shutil
import tempfile

import kept

MARK = "key"


def folder(name):
    """Where the library of this crate is kept."""
    return f"{kept.folder()}/libraries/{name}"


def sum_of(path):
    """A checksum of a folder's files and of their names."""
    found = hashlib.sha256()
    for at, folders, names in os.walk(path):
        folders.sort()
        for it in sorted(names):
            found.update(f"{os.path.relpath(at, path)}/{it} {kept.sum_of_file(f'{at}/{it}')}\n".encode())
    return found.hexdigest()


def find(name, key):
    """The library of this crate that is kept under the key of its pass, or None."""
    made = f"{folder(name)}/{name}.rlib"
    if os.environ.get("TUNKHAZEL_ANEW"):
        return None
    try:
        with open(f"{folder(name)}/{MARK}", encoding="utf-8") as file:
            is_same = file.read() == f"{key}\n{sum_of(made)}\n"
    except OSError:
        return None
    return made if is_same and os.path.isdir(made) else None


def keep(name, key, library):
    """Keeps a copy of this library of the crate, in place of one of another key, where the folder lets it."""
    if find(name, key):
        return
    try:
        os.makedirs(os.path.dirname(folder(name)), exist_ok=True)
        with tempfile.TemporaryDirectory(dir=os.path.dirname(folder(name))) as room:
            shutil.copytree(library, f"{room}/new/{name}.rlib")
            with open(f"{room}/new/{MARK}", "w", encoding="utf-8") as file:
                file.write(f"{key}\n{sum_of(f'{room}/new/{name}.rlib')}\n")
            if os.path.isdir(folder(name)):
                os.rename(folder(name), f"{room}/old")
            os.rename(f"{room}/new", folder(name))
    except OSError:
        pass
