#!/usr/bin/env python3
"""python3 bench/wasm2js.py PROGRAM [--before OTHER] [--only PART ..] [COUNT ..]: what `PROGRAM wasm2js` writes, in four parts:

- `translating`: its time and peak memory on generated modules of so many functions, beside binaryen's `wasm2js`;
- `texts`: the bytes of its texts of each module in examples/, of those functions and of what `wasm2js_modules.py` generates (code of 32 and
  of 64 bits, copies, data, zeros), beside binaryen's text and that of binaryen's `-O`, which drop traps and hold data in base 64;
- `loading`: how long node takes for the texts of data from their bytes to the end of `$init`, and `PROGRAM run-asm` for `$init` alone;
- `loops`: what the loops of `wasm2js_loops.py` take in node as those texts, over what they take there as WebAssembly, past node's first
  compilers: the least of seven runs behind three shorter ones.

With `--before OTHER` the texts of another build of the program stand beside. What isn't installed is left out."""
import argparse
import os
import pathlib
import resource
import shutil
import statistics
import subprocess
import tempfile

import wasm2js_loops
import wasm2js_modules
from measure import compare
from wasm_module import module

COUNTS = [1_000, 10_000]
PARTS = ("translating", "texts", "loading", "loops")
EXAMPLES = pathlib.Path(__file__).resolve().parent.parent / "examples"
PAGE = 65_536

# Prints the least milliseconds of a text's reading, making and `$init`, in turns, for each text.
LOAD = """
const { readFileSync } = require('fs');
const [heap, ...texts] = process.argv.slice(1);
const foreign = { $trap(kind) { throw new Error('trap ' + kind); }, $high() { return 0; } };
const least = texts.map(() => Infinity);
for (let turn = 0; turn < 9; turn++) texts.forEach((text, i) => {
  const source = readFileSync(text, 'latin1') + '/* ' + turn + ' */ return wasm;';
  const before = process.cpuUsage().user;
  new Function(source)()(globalThis, foreign, new ArrayBuffer(Number(heap))).$init();
  least[i] = Math.min(least[i], (process.cpuUsage().user - before) / 1e3);
});
console.log(least.map((it) => it.toFixed(1)).join(' '));
"""

# Prints the least seconds and the result of each way to run a loop, the runs of all ways in turns.
NODE = """
const { readFileSync } = require('fs');
const [turns, heap, wasm, text, other] = process.argv.slice(1);
const foreign = { $trap(kind) { throw new Error('trap ' + kind); }, $high() { return 0; } };
const made = new Function(readFileSync(text, 'latin1') + ' return wasm;')()(globalThis, foreign, new ArrayBuffer(Number(heap)));
made.$init();
const runs = {
  wasm: new WebAssembly.Instance(new WebAssembly.Module(readFileSync(wasm)), {}).exports.f,
  bridge: made[Object.keys(made).find((key) => key !== '$init' && key !== '$hi')],
};
const measure = () => {
  const least = {}, results = {};
  for (const f of Object.values(runs)) for (let i = 0; i < 3; i++) f(Math.ceil(turns / 10));
  for (let i = 0; i < 7; i++) for (const [name, f] of Object.entries(runs)) {
    const before = process.cpuUsage().user;
    results[name] = f(Number(turns));
    least[name] = Math.min(least[name] ?? Infinity, (process.cpuUsage().user - before) / 1e6);
  }
  for (const name of Object.keys(runs)) console.log(name, least[name], results[name]);
};
if (other) import(other).then((binaryen) => { runs.binaryen = binaryen.f; measure(); }); else measure();
"""


def assembled(source, path):
    """Writes the module of a text of WebAssembly, by wabt."""
    text = path.with_suffix(".wat")
    text.write_text(source)
    subprocess.run(["wat2wasm", text, "-o", path], check=True)
    return path


def translated(words):
    """What a translator writes, or None where it refuses."""
    done = subprocess.run(words, stdout=subprocess.PIPE, stderr=subprocess.DEVNULL)
    return done.stdout if done.returncode == 0 else None


def binaryen(path, *flags):
    return translated(["wasm2js", *flags, "--enable-bulk-memory", "--enable-sign-ext", path]) if shutil.which("wasm2js") else None


def modules(room):
    """Each module's name and path: the examples, those of functions, and the generated ones."""
    found = sorted(EXAMPLES.rglob("*.wasm")) + sorted(it for it in EXAMPLES.rglob("*.wat") if not it.with_suffix(".wasm").exists())
    for path in found:
        name = str(path.relative_to(EXAMPLES))
        if path.suffix == ".wasm":
            yield name, path
        elif path.stem != "typo":
            yield name, assembled(path.read_text(), room / f"{path.stem}.wasm")
    functions = room / "functions.wasm"
    functions.write_bytes(module(10_000))
    yield "10,000 functions", functions
    for number, (name, source) in enumerate(wasm2js_modules.families()):
        yield name, assembled(source, room / f"{number}.wasm")


def texts(program, before, room):
    """The bytes of each text, and how many times as long as the others ours is."""
    over = "the build before, binaryen's, its -O's" if before else "binaryen's, its -O's"
    print(f"  {'bytes of':30} {'module':>9} {'bridge':>10} {'binaryen':>12} {'its -O':>12}   over: {over}")
    rows = []
    for name, path in modules(room):
        ours = translated([program, "wasm2js", path])
        if ours is None:
            print(f"{name}: bridge refuses it")
            continue
        others = [translated([before, "wasm2js", path])] if before else []
        plain, short = binaryen(path), binaryen(path, "-O")
        others += [plain, short]
        ratios = [len(ours) / len(it) if it else None for it in others]
        rows.append((len(ours), [len(it) if it else None for it in others]))
        lengths = "".join(f" {len(it) if it is not None else '-':>12}" for it in (plain, short))
        print(f"  {name:30} {path.stat().st_size:9} {len(ours):10}{lengths}   " + " ".join(f"{it:6.3f}" if it else "     -" for it in ratios))
    for number in range(len(rows[0][1])):
        both = [(ours, others[number]) for ours, others in rows if others[number]]
        if both:
            label = (["the build before"] if before else []) + ["binaryen's", "its -O"]
            median = statistics.median(ours / other for ours, other in both)
            print(f"  over {label[number]}: {sum(ours for ours, _ in both) / sum(other for _, other in both):.3f} in sum, {median:.3f} in the median")


def seconds(words, runs=5):
    """The least processor time of a program's runs."""
    least = float("inf")
    for _ in range(runs):
        before = resource.getrusage(resource.RUSAGE_CHILDREN)
        subprocess.run(words, check=True, stdout=subprocess.DEVNULL)
        after = resource.getrusage(resource.RUSAGE_CHILDREN)
        least = min(least, after.ru_utime + after.ru_stime - before.ru_utime - before.ru_stime)
    return least


def loading(program, before, room):
    """The bytes of text for a byte of data, and what the text takes in node and in `run-asm` up to the end of `$init`."""
    script = room / "init.txt"
    script.write_text("call $init\n")
    for name in wasm2js_modules.DATA:
        path = assembled(wasm2js_modules.data(name), room / "data.wasm")
        length = len(wasm2js_modules.DATA[name](PAGE))
        row, files = f"  {name:30}", []
        for number, build in enumerate(it for it in (program, before) if it):
            files.append(room / f"data{number}.js")
            files[-1].write_bytes(translated([build, "wasm2js", path]))
            took = seconds([program, "run-asm", files[-1], script, "--heap", str(2 * PAGE)])
            row += f" {files[-1].stat().st_size / length:6.3f} bytes for a byte, run-asm {took * 1e3:7.1f} ms;"
        if shutil.which("node"):
            row += " node, ms: " + subprocess.run(["node", "-e", LOAD, str(2 * PAGE), *files], check=True, stdout=subprocess.PIPE, text=True).stdout.strip()
        print(row)


def loop_times(program, turns, source, room):
    """The seconds and the result of each way to run a loop in node, by name."""
    path, text, other = assembled(source, room / "loop.wasm"), room / "loop.js", room / "loop.mjs"
    text.write_bytes(translated([program, "wasm2js", path]))
    words = ["node", "-e", NODE, str(turns), str(int(source.split()[2]) * PAGE), path, text]
    binaryens = binaryen(path, "-O")
    if binaryens:
        other.write_bytes(binaryens)
        words.append(other)
    rows = subprocess.run(words, check=True, stdout=subprocess.PIPE, text=True).stdout.split()
    return {name: (float(took), result) for name, took, result in zip(rows[::3], rows[1::3], rows[2::3])}


def loops(program, before, room):
    """Each loop in node, as WebAssembly and as the texts; binaryen's is that of its `-O`, which drops traps."""
    for name, turns, source in wasm2js_loops.LOOPS:
        times = loop_times(program, turns, source, room)
        if before:
            times["before"] = loop_times(before, turns, source, room)["bridge"]
        wasm, result = times.pop("wasm")
        row = f"  {name:34} WebAssembly {wasm:6.3f} s"
        for way, (took, seen) in times.items():
            row += f"   {way} {took:6.3f} s, {took / wasm:5.2f} times" + ("" if seen == result else f" (RESULT {seen}, not {result})")
        print(row)


def main():
    words = argparse.ArgumentParser()
    words.add_argument("program")
    words.add_argument("counts", nargs="*", type=int, default=COUNTS)
    words.add_argument("--before")
    words.add_argument("--only", action="append", choices=PARTS)
    asked = words.parse_args()
    program, before = (it and os.path.abspath(it) for it in (asked.program, asked.before))
    parts = asked.only or PARTS
    if "translating" in parts:
        # (binaryen tells a module by the ending of its name)
        peer = ("binaryen", lambda file: ["sh", "-c", "cp $0 $0.wasm && wasm2js $0.wasm", file])
        compare(asked.counts or COUNTS, "functions", module, [("wasm2js", lambda file: [program, "wasm2js", file]), peer])
    if not shutil.which("wat2wasm"):
        raise SystemExit("wabt's wat2wasm isn't installed: no texts, no loops")
    for part, measured in (("texts", texts), ("loading", loading), ("loops", loops)):
        if part in parts and (part != "loops" or shutil.which("node")):
            with tempfile.TemporaryDirectory() as room:
                measured(program, before, pathlib.Path(room))


if __name__ == "__main__":
    main()
