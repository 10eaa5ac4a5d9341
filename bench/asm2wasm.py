#!/usr/bin/env python3
"""python3 bench/asm2wasm.py PROGRAM [COUNT ..]: time and peak memory of `PROGRAM asm2wasm` on generated texts of asm.js of so many
functions, beside `PROGRAM check-asm`; and, where node is installed, what a loop of loads and stores takes there as the text, which
node compiles as asm.js, as JavaScript without its directive, and as the module that PROGRAM makes of it."""
import os
import shutil
import subprocess
import sys
import tempfile

from asm_text import text
from measure import compare

COUNTS = [1_000, 10_000, 40_000]

LOOP = (
    'function m(stdlib,foreign,heap){"use asm";var H=new stdlib.Int32Array(heap);function f(n){n=n|0;var i=0,s=0;'
    "for(;(i|0)<(n|0);i=i+1|0){H[(i&1023)<<2>>2]=s;s=(s+(H[((i>>>1)&1023)<<2>>2]|0)|0)^i;}return s|0;}return {f:f};}"
)

# Prints the processor seconds of each of the three, and its result, for 200 million turns.
NODE = """
const { readFileSync } = require('fs');
const [text, wasm] = process.argv.slice(1);
const source = readFileSync(text, 'latin1');
const made = (s) => new Function(s + ' return m;')()(globalThis, {}, new ArrayBuffer(4096)).f;
const memory = new WebAssembly.Memory({ initial: 1, maximum: 1 });
const module = new WebAssembly.Instance(new WebAssembly.Module(readFileSync(wasm)), { env: { memory } }).exports.f;
const runs = { 'as asm.js': made(source), 'as JavaScript': made(source.replace('"use asm";', '')), 'translated': module };
for (const [name, f] of Object.entries(runs)) {
  f(1e6);
  const before = process.cpuUsage().user;
  const result = f(2e8);
  console.log(`  ${name.padEnd(14)} ${((process.cpuUsage().user - before) / 1e6).toFixed(3)} s, result ${result}`);
}
"""


def main():
    program = os.path.abspath(sys.argv[1])
    counts = [int(word) for word in sys.argv[2:]] or COUNTS
    tools = [
        ("asm2wasm", lambda file: [program, "asm2wasm", "--heap", "262144", file]),
        ("check-asm", lambda file: [program, "check-asm", file]),
    ]
    compare(counts, "functions", lambda count: text(count).encode(), tools)
    if shutil.which("node"):
        print("200 million turns in node")
        with tempfile.TemporaryDirectory() as folder:
            source, module = os.path.join(folder, "loop.js"), os.path.join(folder, "loop.wasm")
            with open(source, "w", encoding="ascii") as out:
                out.write(LOOP)
            with open(module, "wb") as out:
                out.write(subprocess.run([program, "asm2wasm", "--heap", "4096", source], stdout=subprocess.PIPE, check=True).stdout)
            subprocess.run(["node", "-e", NODE, source, module], check=True)


if __name__ == "__main__":
    main()
