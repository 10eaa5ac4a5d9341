#!/usr/bin/env python3
"""python3 bench/run_wasm.py PROGRAM [TURNS ..]: time and peak memory of `PROGRAM run-wasm` on a loop that adds, stores
and loads, for so many turns, beside wabt's wasm-interp, where it is installed."""
from measure import compare_sessions
from wasm_module import section, signed, unsigned

TURNS = [1_000_000, 3_000_000, 10_000_000]


def module(turns):
    """`go` counts down: memory[0] = memory[0] + i."""
    body = (
        b"\x01\x01\x7f\x41" + signed(turns) + b"\x21\x00\x03\x40"  # local i = turns; loop
        b"\x41\x00\x41\x00\x28\x02\x00\x20\x00\x6a\x36\x02\x00"  # memory[0] = memory[0] + i
        b"\x20\x00\x41\x01\x6b\x22\x00\x0d\x00\x0b"  # i = i - 1; br_if; end
        b"\x41\x00\x28\x02\x00\x0b"  # memory[0]
    )
    return (
        b"\0asm\x01\0\0\0"
        + section(1, b"\x01\x60\x00\x01\x7f")
        + section(3, b"\x01\x00")
        + section(5, b"\x01\x00\x01")
        + section(7, b"\x01\x02go\x00\x00")
        + section(10, b"\x01" + unsigned(len(body)) + body)
    )


def tools(program, script):
    return [
        ("bridge", lambda file: [program, "run-wasm", file, script, "--steps", "1000000000"]),
        ("wasm-interp", lambda file: ["wasm-interp", file, "--run-all-exports"]),
    ]


if __name__ == "__main__":
    compare_sessions(TURNS, ("go.txt", b"call go\n"), module, tools)
