"""The crates of crates.txt, and which of them stands on which.

usage: python3 tests/crates.py folders CRATE..

prints the folders of these crates and of all that they stand on, lowest first.
"""
import os
import re
import sys

TOP = os.path.dirname(os.path.dirname(os.path.realpath(__file__)))


def lines_of_list(top=TOP):
    """The lines of crates.txt, each under the name of its crate."""
    with open(f"{top}/crates.txt", encoding="utf-8") as file:
        lines = [it.rstrip("\n") for it in file]
    return {re.split(r"[ :]", it)[0]: it for it in lines if ":" in it.partition("#")[0]}


def crates_of_list(top=TOP):
    """The crates of crates.txt, each with all of them that it stands on, lowest first."""
    lines, below = lines_of_list(top), {}

    def walk(name):
        if name not in below:
            found = []
            for it in lines[name].partition("#")[0].partition(":")[2].split():
                if it in lines:
                    found += [dep for dep in [*walk(it), it] if dep not in found]
            below[name] = found
        return below[name]

    for name in lines:
        walk(name)
    return below


def main(words):
    below = crates_of_list()
    if len(words) < 2 or words[0] != "folders" or any(it not in below for it in words[1:]):
        print("usage: python3 tests/crates.py folders CRATE..", file=sys.stderr)
        return 2
    names = [dep for it in words[1:] for dep in [*below[it], it]]
    print("\n".join(f"crates/{it}" for it in dict.fromkeys(names)))
    return 0


if __name__ == "__main__":
    sys.exit(main(sys.argv[1:]))
