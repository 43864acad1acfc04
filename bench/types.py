#!/usr/bin/env python3
"""Measures the command `types`, on a program of one line, on queens, and on programs whose size doubles.

    bench/types.py [--smlc PROGRAM]

Each line has a program's bytes, the least processor time of five runs in milliseconds, and, where the size doubles, the ratio to the line before:
2 is linear. The program of one line takes what starting takes and what the library costs; the usage, in the first line, takes what starting takes.
The program is ./smlc if none is named.
"""
import argparse
import pathlib
import resource
import subprocess
import tempfile

TOP = pathlib.Path(__file__).resolve().parent.parent
RUNS = 5


def used_by_children():
    """The processor seconds that ended children have used."""
    used = resource.getrusage(resource.RUSAGE_CHILDREN)
    return used.ru_utime + used.ru_stime


def milliseconds(words):
    """The least processor time of some runs."""
    least = float("inf")
    for _ in range(RUNS):
        before = used_by_children()
        subprocess.run(words, stdout=subprocess.DEVNULL, stderr=subprocess.DEVNULL, check=False)
        least = min(least, (used_by_children() - before) * 1000)
    return least


def doubling():
    """Kinds of programs, each with its text by a size."""
    yield "functions", 250, lambda size: "".join(f"fun f{n} (x, y) = if x = y then [x] else map (fn z => z) [y]\n" for n in range(size))
    yield "datatypes", 125, lambda size: "".join(f"datatype t{n} = A{n} | B{n} of t{n} * int\n" for n in range(size))
    yield "a list", 1000, lambda size: "val xs = [" + ", ".join(str(n) for n in range(size)) + "]\n"
    yield "nested lists", 125, lambda size: "val x = " + "[" * size + "0" + "]" * size + "\n"


def main():
    words = argparse.ArgumentParser(description=__doc__, formatter_class=argparse.RawDescriptionHelpFormatter)
    words.add_argument("--smlc", default=str(TOP / "smlc"))
    program = words.parse_args().smlc
    subprocess.run([program, "types", TOP / "examples/hello.sml"], stdout=subprocess.DEVNULL, check=False)  # so that it is built
    if program == str(TOP / "smlc"):
        program = str(TOP / "crates/smlc/out/smlc")  # the script also looks whether a source has changed
    print(f"{'the usage':14} {'':>9} {milliseconds([program]):9.1f} ms")
    with tempfile.TemporaryDirectory() as folder:
        path = pathlib.Path(folder, "f.sml")

        def measured(name, text):
            path.write_text(text, encoding="utf-8")
            took = milliseconds([program, "types", str(path)])
            print(f"{name:14} {len(text):9,} {took:9.1f} ms", end="")
            return took

        for name, text in (("one line", "val x = 1\n"), ("queens", (TOP / "examples/queens.sml").read_text(encoding="utf-8"))):
            measured(name, text)
            print()
        for name, size, text_of in doubling():
            before = None
            for times in (1, 2, 4, 8):
                took = measured(name, text_of(size * times))
                print(f"  {took / before:.1f}" if before else "")
                before = took


if __name__ == "__main__":
    main()
