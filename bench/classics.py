#!/usr/bin/env python3
"""Counts the instructions that six small programs take, and holds them against what they took before.

    bench/classics.py [--smlc PROGRAM]

The programs are bench/programs/*.sml. How many instructions a run takes is found by halving: with fewer `run --steps` ends with the status 4. The count
doesn't depend on the machine, so it is compared exactly with the table below, and the status is 0 where none is more than 5 percent above it. The program
is ./smlc if none is named. The second column is the time of one whole call, in seconds.
"""
import argparse
import pathlib
import subprocess
import sys
import time

TOP = pathlib.Path(__file__).resolve().parent.parent
WANTED = {"fib": 5027378, "mergesort": 7571856, "nqueens": 1973994, "strings": 2832805, "tak": 743509, "treemap": 8451195}
GOES_ON = 4


def goes_on(smlc, source, steps):
    """Whether the program goes on after so many instructions."""
    done = subprocess.run([smlc, "run", str(source), "--steps", str(steps)], stdin=subprocess.DEVNULL, capture_output=True, check=False)
    if done.returncode not in (0, GOES_ON):
        sys.exit(f"{source.name}: status {done.returncode}, {done.stderr.decode(errors='replace')}")
    return done.returncode == GOES_ON


def instructions(smlc, source):
    """The fewest instructions with which the program ends."""
    low, high = 0, 1 << 20
    while goes_on(smlc, source, high):
        low, high = high, 2 * high
    while low + 1 < high:
        middle = (low + high) // 2
        low, high = (middle, high) if goes_on(smlc, source, middle) else (low, middle)
    return high


def main():
    parser = argparse.ArgumentParser(description=__doc__, formatter_class=argparse.RawDescriptionHelpFormatter)
    parser.add_argument("--smlc", default=str(TOP / "smlc"))
    smlc = parser.parse_args().smlc
    slower = 0
    for name, wanted in WANTED.items():
        source = TOP / "bench" / "programs" / f"{name}.sml"
        begun = time.monotonic()
        goes_on(smlc, source, 1 << 30)
        taken = time.monotonic() - begun
        count = instructions(smlc, source)
        slower += count > 1.05 * wanted
        print(f"{name}: {count} instructions, {100 * (count - wanted) / wanted:+.1f} percent, {taken:.2f} s")
    sys.exit(1 if slower else 0)


if __name__ == "__main__":
    main()
