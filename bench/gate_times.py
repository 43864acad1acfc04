#!/usr/bin/env python3
"""Where the gate's processor time goes.

    bench/gate_times.py CLONE               beside an `rt ci` in the folder CLONE: looks twice a second at what the prover has used, and once
                                            that gate has ended, or at an interrupt, prints a table of the crates
    bench/gate_times.py CLONE --keep FILE   the same, and keeps what was seen in FILE
    bench/gate_times.py CLONE --read FILE   the table of what was kept, also while it is still being kept

The table is Markdown, in processor seconds: of the proof of a crate, of its proof with its tests, of the check that its must-fail edits begin
with, and of the edits, with their number. Compiling, linking and running are not in it. A process's last half second is not seen.
It reads /proc, so it runs on Linux alone, with Python 3 and no other package.
"""
import argparse
import collections
import json
import os
import re
import time

KINDS = ("proof", "tests", "begin", "edits")
TICKS = os.sysconf("SC_CLK_TCK")


def words_of(process):
    """The command line of a process, or nothing where it has ended."""
    try:
        with open(f"/proc/{process}/cmdline", "rb") as it:
            return it.read().decode(errors="replace").rstrip("\0").split("\0")
    except OSError:
        return []


def folder_of(process):
    """The folder that a process works in, or nothing where it has ended."""
    try:
        return os.readlink(f"/proc/{process}/cwd")
    except OSError:
        return ""


def used_by(process):
    """The processor seconds that a process has used, without its children, and when it began; or None where it has ended."""
    try:
        with open(f"/proc/{process}/stat", encoding="utf-8", errors="replace") as it:
            fields = it.read().rpartition(")")[2].split()
    except OSError:
        return None
    return (int(fields[11]) + int(fields[12])) / TICKS, int(fields[19])


def belongs(folder, clone):
    """Whether a process in this folder works for a gate in the clone: in one of its crates, or on an edit, in a folder named by the gate's process."""
    edit = re.match(r".*/rt-edit-(\d+)-", folder)
    return folder_of(edit[1]) == clone if edit else folder.startswith(f"{clone}/crates/")


def look(clone, seen):
    """Notes what each process of the prover has used, and returns whether a gate runs in the clone."""
    goes_on = False
    for process in filter(str.isdigit, os.listdir("/proc")):
        words, folder = words_of(process), folder_of(process)
        goes_on = goes_on or "ci" in words[:4] and folder == clone
        used = used_by(process) if os.path.basename(words[0] if words else "") == "rattle" else None
        if used and belongs(folder, clone):
            record = seen.setdefault(f"{process}:{used[1]}", {"cmd": words, "cwd": folder, "cpu": 0})
            record["cpu"] = used[0]
    return goes_on


def watch(clone, keep):
    """What was seen of a gate in the clone, from now to its end."""
    seen, has_begun, told = {}, False, time.time()
    try:
        while True:
            goes_on = look(clone, seen)
            has_begun = has_begun or goes_on
            if keep and (time.time() - told > 20 or has_begun and not goes_on):
                told = time.time()
                with open(f"{keep}.new", "w", encoding="utf-8") as it:
                    json.dump(list(seen.values()), it)
                os.replace(f"{keep}.new", keep)
            if has_begun and not goes_on:
                break
            time.sleep(0.5)
    except KeyboardInterrupt:
        pass
    return list(seen.values())


def following(words, word):
    """The word behind a word of a command line, if it stands there."""
    return words[words.index(word) + 1] if word in words[:-1] else ""


def kind_of(record, clone):
    """The crate that a process worked for, and what it did there: proof, tests, begin or edits; or None where it is no part of this gate."""
    words, folder = record["cmd"], record["cwd"]
    crate = following(words, "--crate-name")
    if folder == f"{clone}/crates/{crate}" and "build" in words[:2]:
        return crate, "tests" if "--test" in words else "proof"
    if re.match(r".*/rt-edit-\d+-", folder):
        return crate, "begin" if following(words, "--incremental").endswith("/seed") else "edits"
    return None


def table(records, clone):
    """The lines of the table."""
    sums, edits = collections.defaultdict(collections.Counter), collections.defaultdict(set)
    for record in records:
        crate, kind = kind_of(record, clone) or (None, None)
        if crate:
            sums[crate][kind] += record["cpu"]
            if kind == "edits":
                edits[crate].add(record["cwd"])
    row = lambda name, of, count: f"| {name} | " + " | ".join(f"{of[it]:.0f}" for it in KINDS) + f" | {count} | {sum(of.values()):.0f} |"
    yield "| Crate | Proof | With tests | Before edits | Edits | How many | Sum |"
    yield "|---|--:|--:|--:|--:|--:|--:|"
    for crate in sorted(sums, key=lambda it: -sum(sums[it].values())):
        yield row(f"`{crate}`", sums[crate], len(edits[crate]))
    yield row("all", sum(sums.values(), collections.Counter()), sum(map(len, edits.values())))


def main():
    parser = argparse.ArgumentParser(description=__doc__, formatter_class=argparse.RawDescriptionHelpFormatter)
    parser.add_argument("clone")
    parser.add_argument("--keep", metavar="FILE")
    parser.add_argument("--read", metavar="FILE")
    given = parser.parse_args()
    clone = os.path.realpath(given.clone)
    if given.read:
        with open(given.read, encoding="utf-8") as it:
            records = json.load(it)
    else:
        records = watch(clone, given.keep)
    print("\n".join(table(records, clone)))


if __name__ == "__main__":
    main()
