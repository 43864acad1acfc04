#!/usr/bin/env python3
"""Tells where the proof of a crate spends its processor time.

    bench/prove_times.py [--kept DIR] [--rlibs ROOT] [--least SECONDS] CRATE..

For each crate of this repository it runs one check at one job over an empty folder, and prints a table, slowest
first: processor seconds, crate, and the function or lemma file. What a function has is the sum of its modules
(its statement, its generated proof and its answers). Seconds are the processor's and not the clock's, so
the table reads the same on a crowded machine.

The check writes a file for each module as it ends with it. This script watches for these files, and gives each the
processor time since the one before it. Modules that end within a tenth of a second share theirs. What stands before
the first, reading the logic and the libraries, has a line of its own.

    --kept DIR       checks over DIR/CRATE, which is kept: only what isn't there yet, or has changed, is timed
    --rlibs ROOT     takes the libraries of the crates below from ROOT/crates/NAME/out/rlib (default: this repository;
                     `rt check` in a crate's folder builds those below it)
    --least SECONDS  the least that gets a line of its own (default 1)

The status is 0 where each crate was proved.
"""
import argparse
import collections
import contextlib
import os
import re
import shutil
import subprocess
import sys
import tempfile
import time

KIT = "/opt/rattle"
HERE = os.path.dirname(os.path.dirname(os.path.abspath(__file__)))
TICKS = os.sysconf("SC_CLK_TCK")
PAUSE = 0.1


def crates_of(root):
    """What crates.txt says: the libraries that each crate uses."""
    found = {}
    for line in open(f"{root}/crates.txt", encoding="utf-8"):
        line = line.split("#")[0].strip()
        if line:
            head, _, rest = line.partition(":")
            found[head.split()[0]] = rest.split()
    return found


def command_of(crate, crates, rlibs, kept):
    """The check that `rt check` would make, at one job."""
    own, below = [], []
    for used in crates[crate]:
        (own if used in crates else below).append(used)
    words = [f"{KIT}/bin/rattle", "check", "--crate-name", crate, "src/lib.rt"]
    for name in ["std"] + below:
        words += ["--extern", f"{name}={KIT}/rlibs/{name}.rlib"]
    words += ["-L", f"dependency={KIT}/rlibs"]
    for name in own:
        folder = f"{rlibs}/crates/{name}/out/rlib"
        if not os.path.isdir(f"{folder}/{name}.rlib"):
            raise SystemExit(f"{crate}: no library {folder}/{name}.rlib")
        words += ["--extern", f"{name}={folder}/{name}.rlib", "-L", f"dependency={folder}"]
    return words + [
        "--antt-project", f"{KIT}/rattle/logic/antt-project.json", "--logic-built", f"{KIT}/logic_built",
        "--links", f"{crate}=", "--jobs", "1", "--incremental", kept, "--progress",
    ]


def processor_time(pid):
    """Seconds that the process had, with its copies: those that ended and those that run."""
    total = 0
    try:
        fields = open(f"/proc/{pid}/stat").read().rpartition(")")[2].split()
        total += sum(int(ticks) for ticks in fields[11:15])
        for task in os.listdir(f"/proc/{pid}/task"):
            for child in open(f"/proc/{pid}/task/{task}/children").read().split():
                total += processor_time(int(child)) * TICKS
    except (OSError, ValueError, IndexError):
        pass
    return total / TICKS


def new_files(kept, seen, looked):
    """The modules whose files came since the last look, in their order. A folder is read only where it changed."""
    found = []
    for folder in [kept, *(it.path for it in os.scandir(kept) if it.is_dir())]:
        changed = os.stat(folder).st_mtime_ns
        if looked.get(folder) == changed:
            continue
        looked[folder] = changed
        for name in os.listdir(folder):
            with contextlib.suppress(OSError):
                written = os.stat(os.path.join(folder, name)).st_mtime_ns
                if name.endswith(".oantt") and seen.get(name) != written:
                    found.append((written, name))
    found.sort()
    seen.update((name, written) for written, name in found)
    return [name.removesuffix(".oantt") for _, name in found]


def name_of(crate, module):
    """The function or the lemma file to which a module belongs, in the words of the crate."""
    name = re.sub(rf"^Rattle-{crate}(-specs|-proofs)?\.?", "", module).removesuffix(".decls")
    part = "specs" if f"{crate}-specs" in module else "proofs"
    name = re.sub(r"^contracts\.", "", name)
    last = name.split(".")[-1]
    is_file = os.path.exists(f"crates/{crate}/{part}/{name.replace('.', '/')}.antt")
    if is_file and last not in ("Answers", "Invariants", "Proof"):
        return f"{part}/{name.replace('.', '/')}.antt"
    return re.sub(r"(\.(Answers|Invariants|Proof|Code|Statement|Met|The\w+|Borrow\w*|[A-Z][\w-]*))+$", "", name) or name


def measure(crate, crates, rlibs, kept, log):
    """Runs the check. Gives its status, its time, and the time of each module."""
    seen, looked = {}, {}
    new_files(kept, seen, looked)
    modules = collections.Counter()
    folder = os.getcwd()
    words = command_of(crate, crates, rlibs, kept)
    run = subprocess.Popen(words, cwd=f"{folder}/crates/{crate}", stdout=log, stderr=subprocess.STDOUT)
    before = last = 0.0
    while run.poll() is None:
        time.sleep(PAUSE)
        came, now = new_files(kept, seen, looked), max(last, processor_time(run.pid))
        last = now
        if came:
            for module in came if before else ["(reading)"]:
                modules[module] += (now - before) / (len(came) if before else 1)
            before = now
    return run.returncode, last, modules


def table(crate, took, modules, least):
    """Prints what a crate's functions and lemma files took."""
    rows = collections.Counter()
    for module, seconds in modules.items():
        rows[name_of(crate, module)] += seconds
    print(f"{took:8.1f}  {crate}  (whole check)")
    print(f"{took - sum(rows.values()):8.1f}  {crate}  (behind the last module)")
    for name, seconds in rows.most_common():
        if seconds >= least:
            print(f"{seconds:8.1f}  {crate}  {name}")
    sys.stdout.flush()


def main():
    parser = argparse.ArgumentParser(description=__doc__, formatter_class=argparse.RawDescriptionHelpFormatter)
    parser.add_argument("--kept")
    parser.add_argument("--rlibs", default=HERE)
    parser.add_argument("--least", type=float, default=1.0)
    parser.add_argument("--modules", action="store_true", help="a line a module, and not a function")
    parser.add_argument("crates", nargs="+")
    asked = parser.parse_args()
    os.chdir(HERE)
    crates, worst = crates_of(HERE), 0
    for crate in asked.crates:
        kept = os.path.abspath(f"{asked.kept}/{crate}") if asked.kept else tempfile.mkdtemp(prefix="prove-times-")
        os.makedirs(kept, exist_ok=True)
        with tempfile.TemporaryFile(mode="w+") as log:
            status, took, modules = measure(crate, crates, os.path.abspath(asked.rlibs), kept, log)
            table(crate, took, modules, asked.least)
            if asked.modules:
                for module, seconds in modules.most_common():
                    if seconds >= asked.least:
                        print(f"{seconds:8.1f}    {module}")
            log.seek(0)
            print("          " + (log.read().strip().splitlines() or ["no output"])[-1])
        if not asked.kept:
            shutil.rmtree(kept)
        worst = max(worst, status)
    return worst


if __name__ == "__main__":
    sys.exit(main())
