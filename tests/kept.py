"""What has passed on this machine: one file for each pass, named by the checksum of all that it read.

The files lie in ${XDG_CACHE_HOME:-$HOME/.cache}/tunkhazel. Each says its own name again, the last line
that the command printed as it passed, and a checksum of both. A damaged file, a folder that can't be
written and no folder at all are the same as nothing kept: then the command runs, and no error is told.
Where the variable TUNKHAZEL_ANEW is set, as by `./test --anew`, nothing counts as kept.
"""
import hashlib
import os
import subprocess
import tempfile

# What no command reads of a folder: made by the tools, and never committed.
MADE = {".git", "out", "target", "Cargo.lock", "__pycache__"}
LONGEST_LINE = 1000


def folder():
    """Where passes are kept."""
    base = os.environ.get("XDG_CACHE_HOME") or os.path.expanduser("~/.cache")
    return f"{base}/tunkhazel"


def toolchain():
    """The toolchain's line, or that there is none."""
    try:
        ran = subprocess.run(["rt", "version"], stdin=subprocess.DEVNULL, capture_output=True)
    except OSError:
        return "no toolchain"
    return ran.stdout.decode(errors="replace").strip()


def files_of(path):
    """The files of a folder, in order, or the file itself."""
    if os.path.islink(path) or not os.path.isdir(path):
        return [path]
    found = []
    for at, folders, names in os.walk(path):
        links = [it for it in folders if os.path.islink(f"{at}/{it}")]
        folders[:] = [it for it in folders if it not in MADE and it not in links]
        found += [f"{at}/{it}" for it in [*names, *links] if it not in MADE]
    return sorted(found)


def sum_of_file(path):
    """A checksum of what a file holds, whether it may be run, and of a link where it points."""
    if os.path.islink(path):
        return f"link {os.readlink(path)}"
    with open(path, "rb") as file:
        held = hashlib.sha256(file.read()).hexdigest()
    return f"{held} {'run' if os.access(path, os.X_OK) else 'read'}"


def key_of(words, paths):
    """The checksum of the words, of this file and of the files and folders at the paths."""
    parts = [repr(list(words)), sum_of_file(os.path.realpath(__file__))]
    for path in paths:
        parts += [f"{it} {sum_of_file(it)}" for it in files_of(path)]
    return hashlib.sha256("\n".join(parts).encode(errors="surrogateescape")).hexdigest()


def record(key, line):
    """What the file of a pass holds."""
    text = f"{key}\n{line}\n"
    return f"{text}{hashlib.sha256(text.encode()).hexdigest()}\n"


def line_of(key):
    """The last line of the command of this key as it passed, or None where no pass is kept."""
    if os.environ.get("TUNKHAZEL_ANEW"):
        return None
    try:
        with open(f"{folder()}/{key}", encoding="utf-8", newline="") as file:
            text = file.read()
    except (OSError, UnicodeDecodeError):
        return None
    lines = text.split("\n")
    return lines[1] if len(lines) == 4 and text == record(key, lines[1]) else None


def keep(key, line=""):
    """Keeps that the command of this key passed, where the folder lets it."""
    line = line.replace("\r", "")[:LONGEST_LINE]
    try:
        os.makedirs(folder(), exist_ok=True)
        with tempfile.TemporaryDirectory(dir=folder()) as room:
            with open(f"{room}/{key}", "w", encoding="utf-8", newline="") as file:
                file.write(record(key, line))
            os.replace(f"{room}/{key}", f"{folder()}/{key}")
    except OSError:
        pass
