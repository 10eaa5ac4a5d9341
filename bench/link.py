#!/usr/bin/env python3
"""python3 bench/link.py PROGRAM [--runs=N] [WORD ..]: what `PROGRAM link` takes on pairs of generated modules of several shapes, each at
two counts, of which one is ten times the other and gives files of at most 16 MiB.

Beside it: `PROGRAM check-wasm` on both files, in two calls whose seconds are added, of which the larger peak is shown; binaryen's
wasm-merge on both, and wasm-opt without passes on the linked module, which reads and writes as much, where they are installed. Seconds are
of the processor, the least of so many runs (five). Of memory there is the peak, and how many times as much it is as both files. With words,
only the shapes whose names hold one of them."""
import os
import shutil
import subprocess
import sys
import tempfile

import hostile_pairs

SHAPES = {
    "functions": (3_900, hostile_pairs.functions),
    "functions of 50 statements": (3_900, hostile_pairs.longer_functions),
    "large bodies": (23_000, hostile_pairs.large_bodies),
    "imports that are bound": (1_900, hostile_pairs.bound_imports),
    "calls by an entry": (3_900, hostile_pairs.entry_calls),
    "element segments": (4_000, lambda n: hostile_pairs.of_elements(n, 20, 100)),
    "data segments of 100 bytes": (15_000, lambda n: hostile_pairs.data(n, 100)),
    "data segments of 10,000 bytes": (160, lambda n: hostile_pairs.data(n, 10_000)),
}


def measured(words, output=os.devnull):
    """Runs a program once: its processor seconds, and its peak memory in MiB."""
    with open(output, "wb") as out:
        child = subprocess.Popen(words, stdout=out, stderr=subprocess.DEVNULL)
        _, status, usage = os.wait4(child.pid, 0)
        child.returncode = os.waitstatus_to_exitcode(status)
    if child.returncode:
        sys.exit(f"{' '.join(words)} ends with status {child.returncode}")
    return usage.ru_utime + usage.ru_stime, usage.ru_maxrss / 1024


def least(words, runs):
    rows = [measured(words) for _ in range(runs)]
    return min(seconds for seconds, _ in rows), max(memory for _, memory in rows)


def peers(program, files, linked):
    """What runs beside the linker: a name, and calls that are taken together."""
    yield "check-wasm", [[program, "check-wasm", file] for file in files]
    yield "wasm-merge", [["wasm-merge", files[0], "a", files[1], "b", "-o", os.devnull]]
    yield "wasm-opt", [["wasm-opt", linked, "-o", os.devnull]]


def row(name, seconds, memory, length, before):
    growth = f"  {seconds / before[0]:5.1f} and {memory / before[1]:5.1f} times" if before else ""
    return f"  {name:10} {seconds:8.3f} s  {memory:7.1f} MiB, {memory * 2**20 / length:5.1f} times the files{growth}"


def compare(program, paths, runs, before):
    """The rows of one pair. Gives each tool's seconds and peak; `before` has those on the smaller pair."""
    *files, linked = paths
    length = sum(os.path.getsize(file) for file in files)
    measured([program, "link", *files], linked)
    own = least([program, "link", *files], runs)
    print(f"{length} bytes, linked {os.path.getsize(linked)}")
    print(row("link", *own, length, before.get("link")), flush=True)
    took = {"link": own}
    for name, calls in peers(program, files, linked):
        if not shutil.which(calls[0][0]):
            continue
        rows = [least(words, runs) for words in calls]
        seconds, memory = sum(it for it, _ in rows), max(it for _, it in rows)
        print(f"{row(name, seconds, memory, length, before.get(name))}  link takes {own[0] / seconds:.2f} times as long", flush=True)
        took[name] = seconds, memory
    return took


def written(paths, make, count):
    """Writes both modules, in a process of its own, since what is measured begins as a copy of this one."""
    child = os.fork()
    if not child:
        for path, whole in zip(paths, make(count)):
            with open(path, "wb") as out:
                out.write(whole)
        os._exit(0)
    if os.waitpid(child, 0)[1]:
        sys.exit("a pair isn't made")


def main():
    program = os.path.abspath(sys.argv[1])
    options = dict(word.removeprefix("--").split("=", 1) for word in sys.argv[2:] if word.startswith("--"))
    words = [word for word in sys.argv[2:] if not word.startswith("--")]
    with tempfile.TemporaryDirectory() as folder:
        paths = [os.path.join(folder, name) for name in ("first.wasm", "second.wasm", "linked.wasm")]
        for name, (count, make) in SHAPES.items():
            if words and not any(word in name for word in words):
                continue
            took = {}
            for size in (count, 10 * count):
                written(paths, make, size)
                print(f"{name}, {size}: ", end="")
                took = compare(program, paths, int(options.get("runs", "5")), took)


if __name__ == "__main__":
    main()
