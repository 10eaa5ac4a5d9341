#!/usr/bin/env python3
"""python3 bench/heap.py PROGRAM: time and peak memory of `PROGRAM run-wasm` on the memory alone, beside wabt's
wasm-interp, where it is installed: a million 32-bit loads and stores, and copies of 64 MiB, also without the start and
the end of their sessions."""
import os
import shutil
import subprocess
import sys
import tempfile

from measure import compare_sessions
from wasm_module import section, signed, unsigned

ACCESSES = [1_000_000, 4_000_000]
COPIES = [1, 16, 128]
PAGES = 1025  # a copy of 64 MiB by one page
COPIED = 64 * 1024 * 1024


def module(pages, turns, body):
    """`go` runs the body so many times, with its turn in local 0, and gives the word at 0."""
    code = (
        b"\x01\x01\x7f\x41" + signed(turns) + b"\x21\x00\x03\x40"  # local i = turns; loop
        + body
        + b"\x20\x00\x41\x01\x6b\x22\x00\x0d\x00\x0b"  # i = i - 1; br_if; end
        + b"\x41\x00\x28\x02\x00\x0b"  # memory[0]
    )
    return (
        b"\0asm\x01\0\0\0"
        + section(1, b"\x01\x60\x00\x01\x7f")
        + section(3, b"\x01\x00")
        + section(5, b"\x01\x00" + unsigned(pages))
        + section(7, b"\x01\x02go\x00\x00")
        + section(10, b"\x01" + unsigned(len(code)) + code)
    )


def accesses(turns):
    """memory[4 * (i mod 16384)] = memory[0] at each turn."""
    place = b"\x20\x00\x41" + signed(16383) + b"\x71\x41\x02\x74"  # (i & 16383) << 2
    return module(1, turns, place + b"\x41\x00\x28\x02\x00\x36\x02\x00")


def copies(turns):
    """64 MiB from the second page to the first, and back."""
    there = b"\x41\x00\x41" + signed(65536)
    back = b"\x41" + signed(65536) + b"\x41\x00"
    half = b"\x41" + signed(COPIED) + b"\xfc\x0a\x00\x00"
    return module(PAGES, turns, there + half + back + half)


def tools(program, script):
    return [
        ("bridge", lambda file: [program, "run-wasm", file, script, "--steps", "1000000000"]),
        ("wasm-interp", lambda file: ["wasm-interp", file, "--run-all-exports"]),
    ]


def processor_seconds(words):
    """The least processor time of seven runs."""
    times = []
    for _ in range(7):
        child = subprocess.Popen(words, stdout=subprocess.DEVNULL, stderr=subprocess.DEVNULL)
        _, status, usage = os.wait4(child.pid, 0)
        if status:
            raise SystemExit(f"{words[0]} failed with status {os.waitstatus_to_exitcode(status)}")
        times.append(usage.ru_utime + usage.ru_stime)
    return min(times)


def each_copy(program):
    """What a session of 33 turns takes longer than one of a turn, by copy."""
    with tempfile.TemporaryDirectory() as folder:
        script = os.path.join(folder, "go.txt")
        files = {turns: os.path.join(folder, f"{turns}.wasm") for turns in (1, 33)}
        for file, content in [(script, b"call go\n"), *((files[it], copies(it)) for it in files)]:
            with open(file, "wb") as out:
                out.write(content)
        for name, words in tools(program, script):
            if shutil.which(words(script)[0]):
                more = processor_seconds(words(files[33])) - processor_seconds(words(files[1]))
                print(f"  {name:14} {more / 64 * 1000:8.2f} ms of processor time a copy of 64 MiB")


if __name__ == "__main__":
    for turns, content in [(ACCESSES, accesses), (COPIES, copies)]:
        print(content.__doc__)
        compare_sessions(turns, ("go.txt", b"call go\n"), content, tools)
    each_copy(os.path.abspath(sys.argv[1]))
