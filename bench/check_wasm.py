#!/usr/bin/env python3
"""python3 bench/check_wasm.py PROGRAM [COUNT ..]: time and peak memory of `PROGRAM check-wasm` on generated modules of so
many functions, beside wabt's wasm-validate, binaryen's wasm-opt and node, where they are installed. The reader takes at
most 80,000 functions."""
import os
import sys

from measure import compare
from wasm_module import module

COUNTS = [1_000, 10_000, 50_000]
NODE = "process.exit(WebAssembly.validate(require('fs').readFileSync(process.argv[1]))?0:1)"


def main():
    program = os.path.abspath(sys.argv[1])
    counts = [int(word) for word in sys.argv[2:]] or COUNTS
    tools = [
        ("bridge", lambda file: [program, "check-wasm", file]),
        ("wasm-validate", lambda file: ["wasm-validate", file]),
        ("wasm-opt", lambda file: ["wasm-opt", file]),
        ("node", lambda file: ["node", "-e", NODE, file]),
    ]
    compare(counts, "functions", module, tools)


if __name__ == "__main__":
    main()
