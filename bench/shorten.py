#!/usr/bin/env python3
"""python3 bench/shorten.py PROGRAM: processor time and peak memory of `PROGRAM shorten` on texts of different shape, beside `PROGRAM show` on the same
file in the same run, the least of five runs each; and how long the short form is."""
import os
import pathlib
import resource
import subprocess
import sys
import tempfile

import asm_text
import wasm_module

ROOT = pathlib.Path(__file__).resolve().parent.parent
RUNS = 5


def calls(count):
    """Functions of which each calls another, all in one ring."""
    lines = [f"function function_{i}(first,second){{first=first|0;second=second|0;first=function_{(i * 21 + 1) % count}(second,first)|0;return first|0;}}" for i in range(count)]
    return 'function module(){"use asm";' + "\n".join(lines) + f"return function_{count - 1};}}"


def loops(count):
    """Functions of loops, labels and switches."""
    body = "var i=0;outer:while(1){i=i+1|0;switch(i&3){case 0:break outer;case 1:continue outer;default:x=x+i|0;}if((i|0)>9)break outer;}"
    lines = [f"function f{i}(x){{x=x|0;{body}return x|0;}}" for i in range(count)]
    return 'function module(){"use asm";' + "\n".join(lines) + "return{" + ",".join(f"f{i}:f{i}" for i in range(count)) + "};}"


def measured(words):
    """Seconds of the processor, peak memory in MiB, and what the program wrote."""
    best, peak, made = None, 0, b""
    for _ in range(RUNS):
        with tempfile.TemporaryFile() as out:
            child = subprocess.Popen(words, stdin=subprocess.DEVNULL, stdout=out)
            _, status, usage = os.wait4(child.pid, 0)
            child.returncode = os.waitstatus_to_exitcode(status)
            if child.returncode:
                raise SystemExit(f"{words} ended with {child.returncode}")
            out.seek(0)
            made = out.read()
        took = usage.ru_utime + usage.ru_stime
        best, peak = took if best is None else min(best, took), max(peak, usage.ru_maxrss / 1024)
    return best, peak, made


def main():
    program = os.path.abspath(sys.argv[1])
    print(f"the least of {RUNS} runs, load {os.getloadavg()[0]:.1f}")
    with tempfile.TemporaryDirectory() as room:
        def file(name, content):
            path = pathlib.Path(room, name)
            path.write_bytes(content if isinstance(content, bytes) else content.encode())
            return str(path)

        def translated(path):
            return subprocess.run([program, "wasm2js", str(path)], check=True, capture_output=True).stdout

        inputs = {
            "10,000 functions that call the one before": file("a.js", asm_text.text(10_000)),
            "10,000 functions that call another": file("b.js", calls(10_000)),
            "5,000 functions of loops and switches": file("c.js", loops(5_000)),
            "examples/c/bytes.wasm, by wasm2js": file("d.js", translated(ROOT / "examples/c/bytes.wasm")),
            "10,000 functions of WebAssembly, by wasm2js": file("e.js", translated(file("e.wasm", wasm_module.module(10_000)))),
        }
        for what, path in inputs.items():
            shown, short = measured([program, "show", path]), measured([program, "shorten", path])
            length = os.path.getsize(path)
            print(
                f"{what:44} {length:9} bytes  show {shown[0]:6.3f} s {shown[1]:6.1f} MiB  shorten {short[0]:6.3f} s {short[1]:6.1f} MiB"
                f"  ratios {short[0] / shown[0]:.2f}, {short[1] / shown[1]:.2f}  short form {len(short[2]) / length:.2f} of the text",
                flush=True,
            )


if __name__ == "__main__":
    if len(sys.argv) != 2:
        sys.exit(__doc__)
    main()
