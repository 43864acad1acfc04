#!/usr/bin/env python3
"""Runs the programs of the pages in docs/ as they stand, and compares what they give.

    tests/pages.py [--smlc PROGRAM] [PAGE..]

A block of code that is marked `sml` and has a line "gives `TEXT`" directly under it is a file f.sml: `types` has to write TEXT on its standard error
and to answer the status 2. Where a line "`./smlc types FILE` writes" stands under it, FILE has the block's text, and `types` has to write the block that
follows. A block that is marked `library` has lines `NAME : TYPE`, and `types` has to write these types for the names. Pages are README.md and docs/*.md
if none is named, and the program is ./smlc. The status is 0 where all agree.
"""
import argparse
import pathlib
import re
import subprocess
import sys
import tempfile

TOP = pathlib.Path(__file__).resolve().parent.parent
EXAMPLE = re.compile(r"^```sml\n(.*?)^```\ngives `([^`]*)`", re.S | re.M)
TYPED = re.compile(r"^```sml\n((?:(?!^```).)*?)^```\n\n`\./smlc types (\S+)` writes\n\n```\n(.*?)^```", re.S | re.M)
LIBRARY = re.compile(r"^```library\n(.*?)^```", re.S | re.M)
PREFIX = {"!", "~"}
INFIX = {"div", "mod", "o", "before"}


def outcome(program, text):
    """The status, the output and the standard error of `types` on a file of this text."""
    with tempfile.TemporaryDirectory() as folder:
        pathlib.Path(folder, "f.sml").write_text(text, encoding="utf-8")
        done = subprocess.run([program, "types", "f.sml"], cwd=folder, capture_output=True, text=True, check=False)
    return done.returncode, done.stdout, done.stderr


def value(name):
    """The name as an expression."""
    is_infix = name in INFIX or (not name[0].isalpha() and name not in PREFIX)
    return f"op {name}" if is_infix else name


def examples(text):
    """The programs of a page: where each stands, its text, and the outcome that the page says."""
    for found in EXAMPLE.finditer(text):
        yield found.start(), found[1], (2, "", found[2] + "\n")
    for found in TYPED.finditer(text):
        yield found.start(), (TOP / found[2]).read_text(encoding="utf-8"), (0, found[3], "")
        if found[1] != (TOP / found[2]).read_text(encoding="utf-8"):
            sys.exit(f"{found[2]} is not what the page shows")
    for found in LIBRARY.finditer(text):
        rows = [line.split(" : ", 1) for line in found[1].splitlines()]
        program = "".join(f"val it{number} = {value(name)}\n" for number, (name, _) in enumerate(rows))
        types = "".join(f"val it{number} : {kind}\n" for number, (_, kind) in enumerate(rows))
        yield found.start(), program, (0, types, "")


def main():
    words = argparse.ArgumentParser(description=__doc__, formatter_class=argparse.RawDescriptionHelpFormatter)
    words.add_argument("--smlc", default=str(TOP / "smlc"))
    words.add_argument("pages", nargs="*", default=[str(TOP / "README.md")] + sorted(str(page) for page in (TOP / "docs").glob("*.md")))
    asked = words.parse_args()
    tried = wrong = 0
    for page in asked.pages:
        text = pathlib.Path(page).read_text(encoding="utf-8")
        for start, example, wanted in examples(text):
            tried += 1
            got = outcome(asked.smlc, example)
            if got != wanted:
                wrong += 1
                line = text.count("\n", 0, start) + 1
                print(f"{page}:{line}: wanted {wanted}, got {got}")
    print(f"{tried} programs, {wrong} differ")
    return 1 if wrong else 0


if __name__ == "__main__":
    sys.exit(main())
