#!/usr/bin/env python3
"""python3 bench/run_asm.py PROGRAM [--turns N] [--runs R]: processor time of `PROGRAM run-asm` on eight loops of asm.js and on the texts that
`PROGRAM wasm2js` makes of real code, the least of R runs each.

Beside it runs SpiderMonkey's shell js102 as an interpreter (its compilers off), on the same text, with its start taken off; and for real code
`PROGRAM run-wasm` on the module. The last column is the ratio to bridge's peer: below 1 bridge is the faster."""
import argparse
import os
import pathlib
import resource
import shutil
import subprocess
import tempfile

LOOPS = {
    "loads, adds, stores": "x=(H[(i&1023)<<2>>2]|0)+i|0;H[(x&1023)<<2>>2]=x;",
    "the same with Math.imul": "x=M(H[(i&1023)<<2>>2]|0,i|1)|0;H[(x&1023)<<2>>2]=x;",
    "calls": "x=g(x,i)|0;",
    "switch": "switch(i&3){case 0:x=x+1|0;break;case 1:x=x+i|0;break;case 2:x=x-1|0;break;default:x=x^i;}",
    "if": "if((i&1)==0)x=x+i|0;else x=x^i;if((x|0)<0)x=x+7|0;",
    "calls of a table's entries": "x=t[i&1](x,i)|0;",
    "globals": "y=y+i|0;z=z^y;",
}
# The eighth is a loop by itself.
WHILE = "while((i|0)<(n|0)){i=i+1|0;x=x+i|0;}"
TEXT = (
    'function gen(stdlib,foreign,heap){"use asm";var H=new stdlib.Int32Array(heap);var M=stdlib.Math.imul;var y=0,z=0;'
    "function g(a,b){a=a|0;b=b|0;return a+b|0;}function h(a,b){a=a|0;b=b|0;return a^b;}"
    "function f(n){n=n|0;var i=0,x=0;%sreturn x+y+z|0;}var t=[g,h];return f;}\n"
)
EXAMPLES = pathlib.Path(__file__).resolve().parent.parent / "examples" / "c"
REAL = {"CRC-32 of 60,000 bytes": ("crc32", "call crc32 65536 60000\n"), "base64 of 45,000 bytes": ("encode", "call encode 65536 40000 110000\n")}

# its compilers switched off
JS102 = ["js102", "--no-blinterp", "--no-baseline", "--no-ion", "--no-asmjs", "-e"]
JS102_RUN = (
    "const m=evaluate('('+read('%s')+')')(globalThis,{$trap(){},$high(){return 0}},new ArrayBuffer(%d));"
    "const f=typeof m==='function'?m:m['%s'];print('result '+f(%s));"
)


def seconds(words, runs):
    """The least processor time of a program's runs, and what it printed."""
    least = None
    for _ in range(runs):
        before = resource.getrusage(resource.RUSAGE_CHILDREN)
        done = subprocess.run(words, stdin=subprocess.DEVNULL, capture_output=True)
        after = resource.getrusage(resource.RUSAGE_CHILDREN)
        if done.returncode:
            raise SystemExit(f"{' '.join(map(str, words[:3]))} ended with {done.returncode}: {done.stderr.decode(errors='replace')}")
        took = after.ru_utime + after.ru_stime - before.ru_utime - before.ru_stime
        least = took if least is None else min(least, took)
    return least, done.stdout.decode()


def result_of(printed):
    return next((line for line in printed.splitlines() if line.startswith("result")), "nothing")


class Bench:
    def __init__(self, program, room, runs):
        self.program, self.room, self.runs = program, room, runs
        self.start = seconds([*JS102, "0"], runs)[0] if shutil.which("js102") else None

    def file(self, name, content):
        path = pathlib.Path(self.room, name)
        path.write_bytes(content if isinstance(content, bytes) else content.encode())
        return str(path)

    def ours(self, text, script, heap):
        return seconds([self.program, "run-asm", text, script, "--heap", str(heap), "--steps", "1000000000"], self.runs)

    def js102(self, text, heap, name, args):
        if self.start is None:
            return None, None
        took, printed = seconds([*JS102, JS102_RUN % (text, heap, name, args)], self.runs)
        return took - self.start, printed

    def row(self, what, ours, peers):
        cells = [f"{what:28} bridge {ours[0]:7.3f} s"]
        for name, (took, printed) in peers.items():
            if took is None:
                continue
            if result_of(printed) != result_of(ours[1]):
                raise SystemExit(f"{what}: {name} shows {result_of(printed)}, and bridge {result_of(ours[1])}")
            cells.append(f"{name} {took:7.3f} s, ratio {ours[0] / took:5.2f}")
        print("  ".join(cells), flush=True)

    def loop(self, what, text, turns):
        file, script = self.file("loop.js", text), self.file("loop.txt", f"call f {turns}\n")
        self.row(what, self.ours(file, script, 65536), {"js102": self.js102(file, 65536, "f", turns)})

    def real(self, what, name, call):
        wasm, script = str(EXAMPLES / "bytes.wasm"), self.file("real.txt", call)
        text = self.file("real.js", subprocess.run([self.program, "wasm2js", wasm], check=True, capture_output=True).stdout)
        source = seconds([self.program, "run-wasm", wasm, script, "--steps", "1000000000"], self.runs)
        # what `$init` shows comes first, where there is one
        self.row(what, self.ours(text, script, 131072), {"run-wasm on the source": source})


def main():
    parser = argparse.ArgumentParser(description=__doc__, formatter_class=argparse.RawDescriptionHelpFormatter)
    parser.add_argument("program", type=os.path.abspath)
    parser.add_argument("--turns", type=int, default=2_000_000)
    parser.add_argument("--runs", type=int, default=3)
    options = parser.parse_args()
    with tempfile.TemporaryDirectory() as room:
        bench = Bench(options.program, room, options.runs)
        print(f"{options.turns} turns, the least of {options.runs} runs, load {os.getloadavg()[0]:.1f}")
        for what, body in LOOPS.items():
            bench.loop(what, TEXT % ("for(;(i|0)<(n|0);i=i+1|0){" + body + "}"), options.turns)
        bench.loop("while", TEXT % WHILE, options.turns)
        for length in (1, 1000):
            # the time of a turn doesn't depend on the length of a name
            text = (TEXT % WHILE).replace("x", "x" * length)
            bench.loop(f"while, a name of {length} bytes", text, options.turns)
        for what, (name, call) in REAL.items():
            bench.real(what, name, call)


if __name__ == "__main__":
    main()
