#!/usr/bin/env python3
"""python3 bench/read_write_wasm.py PROGRAM TESTS: time and peak memory of reading generated modules of WebAssembly of 10,000,
20,000 and 40,000 functions, by `PROGRAM check-wasm` beside wabt's wasm-validate and binaryen's wasm-opt; then of reading and
writing modules, by those tests of TESTS (`crates/vectors_asm/out/vectors_asm_tests`, as the gate builds it) that build a module
of so many functions, write it, read it, and write it again, beside wasm-opt and wabt's wasm-strip on the generated ones."""
import os
import sys

from measure import compare
from wasm_module import module

COUNTS = [10_000, 20_000, 40_000]


def main():
    program, tests = os.path.abspath(sys.argv[1]), os.path.abspath(sys.argv[2])
    readers = [
        ("bridge", lambda file: [program, "check-wasm", file]),
        ("wasm-validate", lambda file: ["wasm-validate", file]),
        ("wasm-opt", lambda file: ["wasm-opt", file]),
    ]
    writers = [
        ("bridge", lambda file: [tests, f"large::functions_{os.path.basename(file)}"]),
        ("wasm-opt", lambda file: ["wasm-opt", file, "-o", file + ".opt"]),
        ("wasm-strip", lambda file: ["wasm-strip", file, "-o", file + ".strip"]),
    ]
    print("Reading")
    compare(COUNTS, "functions", module, readers)
    print("Reading and writing")
    compare(COUNTS, "functions", module, writers)


if __name__ == "__main__":
    main()
