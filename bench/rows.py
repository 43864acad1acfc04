#!/usr/bin/env python3
"""Says which crates a row of crates.txt lists that no file of its crate names, and how many ways down the toolchain walks for it.

    bench/rows.py [--trim] [NAME..]

`rt ci` finds what is below a crate by walking every way down, so a row that lists all crates below it doubles the walk of each row above. A crate has to list
those that its files name and no others. With --trim the rows are written anew. A crate whose row changes is proved again, and so are those above it.
All rows are looked at if none is named.
"""
import argparse
import functools
import pathlib
import re

TOP = pathlib.Path(__file__).resolve().parent.parent
LIST = TOP / "crates.txt"


def rows():
    """What each crate lists, by name."""
    lines = [line.split("#")[0] for line in LIST.read_text().splitlines()]
    return {line.split(":")[0].strip(): line.split(":")[1].split() for line in lines if ":" in line}


def named(crate):
    """The crates that the files of a crate name."""
    found = set()
    for part in ("src", "specs", "proofs"):
        for path in (TOP / "crates" / crate / part).rglob("*"):
            if path.suffix in (".rt", ".antt"):
                text = path.read_text()
                found |= set(re.findall(r"Rattle\.(\w+)\.", text))
                found |= set(re.findall(r"\b(\w+)::", text)) if path.suffix == ".rt" else set()
    return found


def main():
    parser = argparse.ArgumentParser(description=__doc__, formatter_class=argparse.RawDescriptionHelpFormatter)
    parser.add_argument("--trim", action="store_true")
    parser.add_argument("names", nargs="*")
    words = parser.parse_args()
    below = rows()

    @functools.cache
    def ways(crate):
        return 1 + sum(ways(it) for it in below.get(crate, []))

    trimmed = {}
    for crate in words.names or below:
        cited = named(crate)
        unnamed = [it for it in below[crate] if it not in cited]
        trimmed[crate] = [it for it in below[crate] if it in cited]
        if unnamed:
            print(f"{crate}: {ways(crate)} ways; not named: {' '.join(unnamed)}")
    print(f"{sum(map(ways, below))} ways in all")
    if words.trim:
        lines = LIST.read_text().splitlines()
        of = lambda line: line.split(":")[0]
        LIST.write_text("".join(f"{of(it)}: {' '.join(trimmed[of(it)])}\n" if ":" in it and of(it) in trimmed else f"{it}\n" for it in lines))


if __name__ == "__main__":
    main()
