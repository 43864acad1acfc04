#!/usr/bin/env python3
"""Runs the programs of examples/ with `run`, and compares what they give.

    tests/examples.py [--smlc PROGRAM] [NAME..]

examples/NAME.sml has to write examples/NAME.out, and to end with the status that NAME.status has (0 where there is none), with NAME.err on the standard
error (nothing where there is none). It is given NAME.in to read, or nothing. All programs are run if none is named, and the program is ./smlc.
The status is 0 where all agree.
"""
import argparse
import pathlib
import subprocess
import sys

TOP = pathlib.Path(__file__).resolve().parent.parent
EXAMPLES = TOP / "examples"


def beside(source, ending):
    """The bytes of the file beside a program, or none."""
    path = source.with_suffix(ending)
    return path.read_bytes() if path.exists() else b""


def differences(smlc, source):
    """What of a run isn't as it should be: the name of the thing, what came and what was to come."""
    done = subprocess.run([smlc, "run", str(source)], input=beside(source, ".in"), capture_output=True, check=False)
    wanted = [
        ("status", done.returncode, int(beside(source, ".status") or b"0")),
        ("output", done.stdout, beside(source, ".out")),
        ("standard error", done.stderr, beside(source, ".err")),
    ]
    return [row for row in wanted if row[1] != row[2]]


def main():
    parser = argparse.ArgumentParser(description=__doc__, formatter_class=argparse.RawDescriptionHelpFormatter)
    parser.add_argument("--smlc", default=str(TOP / "smlc"))
    parser.add_argument("names", nargs="*")
    words = parser.parse_args()
    sources = [EXAMPLES / f"{name}.sml" for name in words.names] or sorted(EXAMPLES.glob("*.sml"))
    failed = 0
    for source in sources:
        wrong = differences(words.smlc, source)
        failed += bool(wrong)
        print(f"{source.stem}: {'differs' if wrong else 'as it should be'}")
        for thing, came, wanted in wrong:
            print(f"  {thing}: {came!r} instead of {wanted!r}")
    print(f"{len(sources)} programs, {failed} differ")
    sys.exit(1 if failed else 0)


if __name__ == "__main__":
    main()
