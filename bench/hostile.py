#!/usr/bin/env python3
"""python3 bench/hostile.py PROGRAM [--part=N] [--commands=NAME,..] [--share=K/N] [--runs=N] [WORD ..]: what hostile inputs cost.

Each family (`hostile_asm.py`, `hostile_wasm.py`, `hostile_wat.py`, pairs of modules in `hostile_pairs.py`, and scripts below) gives an input for a count and for ten times that; both are at most
16,777,216 bytes long. Each command that takes it runs once on each, with a stack of 8 MiB (or of `STACK` MiB by the environment). A row has the status, the length, the processor
seconds and the peak memory on the long input, and how many times as much each is as on the short one. Marks at the end of a row:

    SIGNAL      the process was ended by a signal; 24 is more than 300 processor seconds
    TIME        more than 1.1 times as many times the seconds as the length, where that is above 0.1 seconds
    MEMORY      the same of the memory, above 100 MiB
    GIB         above 1 GiB
    WIDE        more than 24 bytes of memory for each byte of a text of WebAssembly

With `--part=N` the counts are divided by N; `--commands` gives the commands that are run; `--share=1/3` takes every third family from the first on, for
three runs side by side; with `--runs=3` a row that would be marked TIME is run again, up to three times in all, and shows of each input the run that
took the fewest seconds. With words, only the families whose names hold one of them. The exit status is 1 where a process was ended by a signal."""
import os
import resource
import subprocess
import sys
import tempfile

import colliding
import hostile_asm
import hostile_pairs
import hostile_wasm
import hostile_wat

LIMIT = 16_777_216
SECONDS = 300
# In MiB, as a process usually has it. A build without proofs has larger frames, and needs twice that.
STACK = int(os.environ.get("STACK", "8"))
MEMORY = 12 << 30

ASM = ["check-asm", "show", "shorten", "asm2wasm", "run-asm"]
WASM = ["check-wasm", "show", "wasm2js", "run-wasm"]
WAT = ["wat2wasm"]


def script(line, module):
    """A family of scripts: so many lines on this module."""
    return lambda n: (module, line(n))


def imported_globals(n):
    module = hostile_wasm.imports(n, kind=b"\x03\x7f\x00")
    return module, b"".join(b"global i%d 1\n" % i for i in range(n))


def called_exports(n):
    return hostile_wasm.exports(n), b"".join(b"call e%d\n" % i for i in range(n))


def foreign_globals(n):
    module = hostile_asm.text("", before="var " + ",".join(f"g{i}=o.g{i}|0" for i in range(n)) + ";")
    return module, b"".join(b"global g%d 1\n" % i for i in range(n))


def called_keys(n):
    module = hostile_asm.text("", after="return{" + ",".join(f"e{i}:f" for i in range(n)) + "};")
    return module, b"".join(b"call e%d 1\n" % i for i in range(n))


def turns_on_a_long_name(n):
    """As many turns of a loop as its variable's name has bytes: no turn reads the name."""
    name = "n" * n
    body = f"while((x|0)<{n}){{x=x+1|0;{name}={name}+x|0;}}x={name}|0;"
    return hostile_asm.text(f"var {name}=0;{body}"), b"call f 0\n"


def colliding_exports(n):
    names = [it.encode() for it in colliding.names(n)]
    return hostile_wasm.exports(n, lambda i: names[i]), b"".join(b"call %s\n" % it for it in reversed(names))


def colliding_keys(n):
    names = colliding.names(n)
    module = hostile_asm.text("", after="return{" + ",".join(f"{it}:f" for it in names) + "};")
    return module, "".join(f"call {it} 1\n" for it in reversed(names)).encode()


def last_export(n):
    return hostile_wasm.exports(1000), b"call e999\n" * n


def changing_exports(n):
    return hostile_wasm.exports(1000), b"call e999\ncall e998\n" * n


def if_found(name, family):
    """A family of colliding names, where there are any."""
    return {name: family} if colliding.finder() else {}


LITTLE_TEXT = hostile_asm.text("", before="var H=new s.Int32Array(h);")
LITTLE_MODULE = hostile_wasm.importing_memory()

# (a script's family gives the module too, which is the same for both counts or a part of what grows)
ASM_SCRIPTS = {
    "calls": (160_000, script(lambda n: b"call f 1\n" * n, LITTLE_TEXT)),
    "remarks": (800_000, script(lambda n: b"#\n" * n, LITTLE_TEXT)),
    "empty lines": (1_600_000, script(lambda n: b"\n" * n, LITTLE_TEXT)),
    "a long word": (1_600_000, script(lambda n: b"call " + b"f" * n, LITTLE_TEXT)),
    "lines of the heap": (100_000, script(lambda n: b"heap 16 01\n" * n, LITTLE_TEXT)),
    "a long line of the heap": (6_500, script(lambda n: b"heap 0 " + b"01" * n, LITTLE_TEXT)),
    "replies": (160_000, script(lambda n: b"reply 1\n" * n, LITTLE_TEXT)),
    "a reply of many writes": (250_000, script(lambda n: b"reply 1" + b" 1=00" * n, LITTLE_TEXT)),
    "foreign globals with a line each": (9_000, foreign_globals),
    "a call of each of many exports": (60_000, called_keys),
    "as many turns of a loop as its variable's name has bytes": (10_000, turns_on_a_long_name),
    **if_found("calls of keys that collide", (20_000, colliding_keys)),
}
WASM_SCRIPTS = {
    "calls": (160_000, script(lambda n: b"call f\n" * n, LITTLE_MODULE)),
    "lines of the heap": (100_000, script(lambda n: b"heap 16 01\n" * n, LITTLE_MODULE)),
    "replies": (160_000, script(lambda n: b"reply 1\n" * n, LITTLE_MODULE)),
    "imported globals with a line each": (9_000, imported_globals),
    "a call of each of many exports": (60_000, called_exports),
    "calls of the last of 1,000 exports": (16_000, last_export),
    "calls of two of 1,000 exports": (8_000, changing_exports),
    **if_found("calls of exports that collide", (20_000, colliding_exports)),
}


def bounds():
    resource.setrlimit(resource.RLIMIT_STACK, (STACK << 20, STACK << 20))
    resource.setrlimit(resource.RLIMIT_CPU, (SECONDS, SECONDS + 5))
    resource.setrlimit(resource.RLIMIT_AS, (MEMORY, MEMORY))
    resource.setrlimit(resource.RLIMIT_CORE, (0, 0))


def measured(words):
    """Runs the words once: the exit status, or the signal below 0; processor seconds; peak memory in MiB; the first line of its report."""
    with tempfile.TemporaryFile() as report:
        child = subprocess.Popen(words, stdout=subprocess.DEVNULL, stderr=report, preexec_fn=bounds)
        _, status, usage = os.wait4(child.pid, 0)
        child.returncode = os.waitstatus_to_exitcode(status)
        report.seek(0)
        line = report.read(200).decode("ascii", "replace").partition("\n")[0]
    return child.returncode, usage.ru_utime + usage.ru_stime, usage.ru_maxrss / 1024, line


def least(rows):
    """The run that took the fewest seconds, or one that was ended by a signal."""
    return min(rows, key=lambda row: (row[0] >= 0, row[1]))


def times_as_long(short, long):
    return long[1] / max(short[1], 0.01)


def grows_faster(short, long, growth):
    """Whether the seconds grow faster than the input, by more than a tenth."""
    return times_as_long(short, long) > 1.1 * growth and long[1] > 0.1


def both(words, lengths, run, runs):
    """The row of one command. Answers whether a process was ended by a signal."""
    growth = lengths[1] / lengths[0]
    shorts, longs = [run(0)], [run(1)]
    while grows_faster(least(shorts), least(longs), growth) and len(longs) < runs:
        shorts.append(run(0))
        longs.append(run(1))
    short, long = least(shorts), least(longs)
    status, seconds, memory, line = long
    times, more = times_as_long(short, long), memory / short[2]
    marks = [f"SIGNAL {-it[0]}" for it in (short, long) if it[0] < 0]
    marks += ["TIME"] * grows_faster(short, long, growth)
    marks += ["MEMORY"] * (more > 1.1 * growth and memory > 100)
    marks += ["GIB"] * (memory > 1024)
    marks += ["WIDE"] * (words in WAT and memory * 2**20 > 24 * lengths[1] and memory > 100)
    said = line if status and status > 0 else ""
    print(
        f"  {words:11} {status:3} {lengths[1]:9} bytes {growth:5.1f} times"
        f"  {seconds:8.2f} s {times:6.1f} times  {memory:7.0f} MiB {more:5.1f} times"
        f"{f'  of {len(longs)} runs' if len(longs) > 1 else ''}  {' '.join([*marks, said])}",
        flush=True,
    )
    return min(short[0], long[0]) < 0


def written(names, make, n):
    """Writes a module and a script, or two modules. A process of its own does, since what is measured begins as a copy of this one."""
    child = os.fork()
    if not child:
        for name, whole in zip(names, make(n)):
            with open(name, "wb") as out:
                out.write(whole)
        os._exit(0)
    if os.waitpid(child, 0)[1]:
        sys.exit("an input isn't made")
    sizes = [os.path.getsize(name) for name in names]
    if max(sizes) > LIMIT:
        sys.exit(f"an input has {max(sizes)} bytes")
    return sum(sizes)


def family(program, folder, make, n, commands, runs):
    """The rows of one family, for this count and ten times that."""
    paths = [[os.path.join(folder, f"{kind}{at}") for kind in "ms"] for at in range(2)]
    lengths = [written(names, make, count) for names, count in zip(paths, (n, 10 * n))]
    ended = False
    for command in commands:
        files = 2 if command == "link" or command.startswith("run-") else 1
        ended |= both(command, lengths, lambda at: measured([program, command, *paths[at][:files]]), runs)
    return ended


def alone(make):
    """A family of modules, each with an empty script."""
    return lambda n: (make(n), b"")


def groups():
    yield "asm.js", ASM, {name: (n, alone(make)) for name, (n, make) in hostile_asm.FAMILIES.items()}
    yield "WebAssembly", WASM, {name: (n, alone(make)) for name, (n, make) in hostile_wasm.FAMILIES.items()}
    yield "texts of WebAssembly", WAT, {name: (n, alone(make)) for name, (n, make) in hostile_wat.FAMILIES.items()}
    yield "pairs", ["link"], hostile_pairs.FAMILIES
    yield "scripts of asm.js", ["run-asm"], ASM_SCRIPTS
    yield "scripts of WebAssembly", ["run-wasm"], WASM_SCRIPTS


def main():
    program, words = os.path.abspath(sys.argv[1]), sys.argv[2:]
    options = dict(word.removeprefix("--").split("=", 1) for word in words if word.startswith("--"))
    words = [word for word in words if not word.startswith("--")]
    part, only = int(options.get("part", "1")), options.get("commands", "").split(",")
    runs = int(options.get("runs", "1"))
    share, shares = (int(it) for it in options.get("share", "1/1").split("/"))
    ended = False
    every = [(kind, commands, *it) for kind, commands, families in groups() for it in families.items()]
    with tempfile.TemporaryDirectory() as folder:
        for kind, commands, name, (n, make) in every[share - 1 :: shares]:
            if words and not any(word in f"{kind}: {name}" for word in words):
                continue
            n = max(1, n // part)
            print(f"{kind}: {name}, {n} and {10 * n}", flush=True)
            ended |= family(program, folder, make, n, [it for it in commands if only == [""] or it in only], runs)
    return 1 if ended else 0


if __name__ == "__main__":
    if len(sys.argv) < 2:
        sys.exit(__doc__)
    sys.exit(main())
