#!/usr/bin/env python3
"""Prints the libraries of this repository that a crate lists in crates.txt and does not name in its files, and ends with status 1 where
there is one.

`rt ci` plans by going over every path of crates.txt from a crate down to the bottom: 2.3 million with the libraries that each crate
names, some two minutes of one processor. A library more in a line makes all paths through that line more.
"""
import pathlib
import re
import sys

TOP = pathlib.Path(__file__).resolve().parent.parent
PARTS = ("src", "specs", "proofs")


def listed():
    """The libraries that each crate lists."""
    lines = (line.split("#")[0].strip() for line in (TOP / "crates.txt").read_text().splitlines())
    return {line.split(":")[0].split()[0]: line.split(":")[1].split() for line in lines if line}


def named(crate):
    """The names in front of paths in the crate's files: `NAME::` in code, `Rattle.NAME.` in clauses and proofs."""
    found = set()
    for part in PARTS:
        for file in (TOP / "crates" / crate / part).rglob("*.*t"):
            text = file.read_text()
            found |= set(re.findall(r"\bRattle\.(\w+)\.", text))
            if file.suffix == ".rt":
                found |= set(re.findall(r"\b(\w+)::", text))
    return found


def main():
    uses = listed()
    idle = []
    for crate in uses:
        names = named(crate)
        idle += [f"crates.txt: {crate} lists {name}, and does not name it" for name in uses[crate] if name in uses and name not in names]
    print("\n".join(idle), end="\n" if idle else "")
    return 1 if idle else 0


if __name__ == "__main__":
    sys.exit(main())
