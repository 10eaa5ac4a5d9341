#!/usr/bin/env python3
"""Runs the gate and prints how much processor time each crate took.

    bench/gate.py [NAME ..]        runs `rt ci NAME ..` at the top of this checkout

Every second the processes of the prover are read from /proc; those of this run that have a `--crate-name` count for that crate, by what they do:
proof (with the building of its library or program), tests, edits. What ends within a second of its start isn't seen, so the sums are a
little low. Other runs of the prover on the machine don't count, but what runs beside makes each process take longer: leave the machine alone.
"""
import collections
import os
import pathlib
import subprocess
import sys
import time

TOP = pathlib.Path(__file__).resolve().parent.parent
TICK = os.sysconf("SC_CLK_TCK")


def work_of(words, folder, gate):
    """Returns the crate and the work of a prover's command line in a folder, or nothing where it isn't one of this run."""
    if "--crate-name" not in words or not words[0].endswith("rattle"):
        return None
    # (edits, and crates that are named, are in folders that are named after the gate's process)
    if f"-{gate}-" not in folder and not pathlib.Path(folder).is_relative_to(TOP):
        return None
    work = "edits" if "rt-edit-" in folder else "tests" if "--test" in words else "proof"
    return words[words.index("--crate-name") + 1], work


def seen(gate):
    """Returns, for each process of the prover in this run, its crate, its work and the seconds of processor time that it has taken."""
    found = {}
    for entry in os.scandir("/proc"):
        if not entry.name.isdigit():
            continue
        try:
            words = pathlib.Path(entry.path, "cmdline").read_bytes().decode("utf-8", "replace").split("\0")
            stat = pathlib.Path(entry.path, "stat").read_text()
            folder = os.readlink(f"{entry.path}/cwd")
        except OSError:
            continue
        work = work_of(words, folder, gate)
        if work:
            fields = stat[stat.rindex(")") + 2:].split()
            found[int(entry.name), fields[19]] = (*work, (int(fields[11]) + int(fields[12])) / TICK)
    return found


def main():
    begun = time.monotonic()
    gate = subprocess.Popen(["rt", "ci", *sys.argv[1:]], cwd=TOP)
    taken = {}
    while gate.poll() is None:
        taken.update(seen(gate.pid))
        time.sleep(1)
    sums = collections.defaultdict(lambda: collections.defaultdict(float))
    for crate, work, seconds in taken.values():
        sums[crate][work] += seconds
    print(f"clock {(time.monotonic() - begun) / 60:.1f} min", file=sys.stderr)
    print(f"processor {sum(sum(works.values()) for works in sums.values()) / 60:.1f} min", file=sys.stderr)
    for crate, works in sorted(sums.items(), key=lambda row: -sum(row[1].values())):
        print(f"{crate:24}", *(f"{work} {seconds:.0f} s" for work, seconds in sorted(works.items())), file=sys.stderr)
    return gate.returncode


sys.exit(main())
