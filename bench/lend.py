#!/usr/bin/env python3
"""Lends a clone the libraries that a whole gate has proved and built in another.

    bench/lend.py GATE LOG CLONE

GATE is the clone in which `rt ci` runs or ran, LOG what it printed, and CLONE another clone on this machine. Each crate of CLONE gets the built library
if the gate has proved it and its files, and those of all crates below it, are the same in both: a check above it then begins at once. No verdict
rests on that: the gate proves what it reads itself. A clone in which a crate below was built by a check of its own needs that crate's out/ removed first.
"""
import os
import pathlib
import re
import shutil
import subprocess
import sys

TOOLCHAIN = "/opt/rattle/bin"


def crates_of(top):
    """What each crate of crates.txt stands on, by name."""
    rows = [line.split("#")[0].strip() for line in (top / "crates.txt").read_text().splitlines()]
    return {row.split(":")[0].split()[0]: row.split(":")[1].split() for row in rows if ":" in row}


def proved_in(log):
    """The names of the crates that the gate has proved, or found proved."""
    return set(re.findall(r"^rt: (\S+) (?:proved|is kept)", log.read_text(errors="replace"), re.M))


class Lender:
    def __init__(self, gate, log, clone):
        self.gate, self.clone = gate, clone
        self.below, self.proved, self.same = crates_of(clone), proved_in(log), {}

    def is_same(self, name):
        """Whether the crate and all below it are as in the gate, and proved there."""
        if name not in self.below:
            return True
        if name not in self.same:
            self.same[name] = (
                all(self.is_same(it) for it in self.below[name])
                and name in self.proved
                and (self.gate / "crates" / name).is_dir()
                and subprocess.run(
                    ["diff", "-rq", "-x", "out", self.gate / "crates" / name, self.clone / "crates" / name],
                    capture_output=True,
                ).returncode == 0
            )
        return self.same[name]

    def lend(self, crate):
        """Gives the crate its library, and says whether it did."""
        built = self.gate / "crates" / crate.name / "out" / "rlib" / f"{crate.name}.rlib"
        if crate.name not in self.below or not self.is_same(crate.name) or not built.is_dir() or crate.is_built():
            return False
        to = pathlib.Path(crate.folder) / "out" / "rlib"
        shutil.rmtree(to, ignore_errors=True)
        to.mkdir(parents=True)
        subprocess.run(["cp", "-al", built, to / built.name], check=True)
        (to / "stamp").write_text(crate.stamp())
        return True


def main():
    gate, log, clone = (pathlib.Path(word).resolve() for word in sys.argv[1:4])
    os.chdir(clone)
    sys.path.insert(0, TOOLCHAIN)
    import rtlib

    # A stamp reads the files of all crates below: once each, and not once for each way that leads there.
    stamp, stamps = rtlib.Crate.stamp, {}

    def stamp_once(crate):
        if crate.folder not in stamps:
            stamps[crate.folder] = stamp(crate)
        return stamps[crate.folder]

    rtlib.Crate.stamp = stamp_once
    lender = Lender(gate, log, clone)
    print("lent:", *[crate.name for crate in rtlib.crates_below(str(clone / "crates")) if lender.lend(crate)])


if __name__ == "__main__":
    main()
