#!/usr/bin/env python3
"""python3 bench/check_asm.py PROGRAM [COUNT ..]: time and peak memory of `PROGRAM check-asm` on generated texts of asm.js
of so many functions, beside what node and SpiderMonkey's shell js102 take to compile them, where they are installed."""
import os
import sys

from asm_text import text
from measure import compare

COUNTS = [1_000, 10_000, 40_000]
NODE = "new (require('vm').Script)('('+require('fs').readFileSync(process.argv[1],'latin1')+')')"


def main():
    program = os.path.abspath(sys.argv[1])
    counts = [int(word) for word in sys.argv[2:]] or COUNTS
    tools = [
        ("bridge", lambda file: [program, "check-asm", file]),
        ("node", lambda file: ["node", "-e", NODE, file]),
        ("js102", lambda file: ["js102", "-e", f"evaluate('('+read('{file}')+')')"]),
    ]
    compare(counts, "functions", lambda count: text(count).encode(), tools)


if __name__ == "__main__":
    main()
