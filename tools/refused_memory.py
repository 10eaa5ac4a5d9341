#!/usr/bin/env python3
"""Runs each command on small modules with each of its allocations refused in turn, and looks at how it ends.

    tools/refused_memory.py PROGRAM

Each run has to end with status 9 and nothing on standard output, or with status 0 and its whole output. Where no compiler of C is installed
it says so and ends with status 0."""
import os
import pathlib
import shutil
import subprocess
import sys
import tempfile

HERE = pathlib.Path(__file__).resolve().parent

SUM = b'function m(){"use asm";function f(a,b){a=a|0;b=b|0;return a+b|0;}return f;}'

# As a compiler of C writes it.
USUAL = b"""function asm(global,env,buffer){
'use asm';
var HEAP8=new global.Int8Array(buffer);
var HEAP32=new global.Int32Array(buffer);
var HEAPF64=new global.Float64Array(buffer);
var STACKTOP=env.STACKTOP|0;
var tempInt=0,tempDouble=0.0,nan=global.NaN,inf=global.Infinity;
var Math_floor=global.Math.floor;
var Math_imul=global.Math.imul;
var abort=env.abort;
function stackAlloc(size){
size=size|0;
var ret=0;
ret=STACKTOP;
STACKTOP=STACKTOP+size|0;
STACKTOP=STACKTOP+15&-16;
return ret|0;
}
function _put(p,v){p=p|0;v=v|0;HEAP32[p>>2]=Math_imul(v,3)|0;HEAP8[p+4>>0]=v;if((v|0)<0)abort(v|0);return HEAP8[p>>0]|0;}
return {stackAlloc:stackAlloc,_put:_put};
}"""

# A member with a long name, called by two shapes.
LONG = b'function m(s,o){"use asm";var e=o.' + b"n" * 300 + b";function f(x){x=x|0;e();e(x|0);}return f;}"

# It exports `m`, the sum of two numbers of 64 bits.
WIDE_SUM = b"\0asm\x01\0\0\0\x01\x07\x01`\x02~~\x01~\x03\x02\x01\0\x07\x05\x01\x01m\0\0\x0a\x09\x01\x07\0 \0 \x01|\x0b"

FILES = {
    "sum.js": SUM,
    "sum.txt": b"call f 2147483647 1\n",
    "usual.js": USUAL,
    "long.js": LONG,
    "usual.txt": b"global STACKTOP 1000\ncall stackAlloc 5\ncall stackAlloc 0\ncall _put 16 -2\nreply 0\n",
    "wide.wasm": WIDE_SUM,
    "wide.txt": b"call m 4294967295 4294967295\n",
}

COMMANDS = [
    *(f"{command} {name}.js" for command in ("check-asm", "show", "shorten", "asm2wasm") for name in ("sum", "usual")),
    "asm2wasm long.js",
    "run-asm sum.js sum.txt",
    "run-asm usual.js usual.txt",
    *(f"{command} wide.wasm" for command in ("check-wasm", "show", "wasm2js")),
    *(f"{command} usual.wasm" for command in ("check-wasm", "show", "wasm2js")),
    "run-wasm wide.wasm wide.txt",
    "run-wasm usual.wasm usual.txt",
    "link usual.wasm wide.wasm",
    "link wide.wasm usual.wasm",
    "gen 1",
    "gen 2",
]


def run(program, words, folder, **variables):
    done = subprocess.run([program, *words], cwd=folder, env={**os.environ, **variables}, capture_output=True)
    return done.returncode, done.stdout, done.stderr


def sweep(program, words, folder, library):
    """Runs the command with each allocation refused. Gives how many there are, how many of the runs gave up, and what was wrong."""
    counted = folder / "counted"
    whole = run(program, words, folder, LD_PRELOAD=library, COUNTED=str(counted))
    if whole[0] or not whole[1]:
        return 0, 0, [f"status {whole[0]} where nothing is refused"]
    calls, gave_up, wrong = int(counted.read_text()), 0, []
    # The words of the command line are read before anything can be reported.
    may_be_silent = True
    for refused in range(1, calls + 1):
        ended = run(program, words, folder, LD_PRELOAD=library, REFUSED=str(refused))
        gave_up += ended[0] == 9
        may_be_silent &= ended == (9, b"", b"")
        if not may_be_silent and ended not in ((9, b"", b"out of memory\n"), whole):
            status, output, report = ended
            wrong.append(f"allocation {refused} of {calls}: status {status}, {len(output)} bytes, {report[:80]!r}")
    return calls, gave_up, wrong


def main():
    if len(sys.argv) != 2:
        sys.exit(__doc__)
    program = str(pathlib.Path(sys.argv[1]).resolve())
    compiler = next(filter(None, map(shutil.which, ("cc", "gcc", "clang"))), None)
    if not compiler:
        print("no compiler of C is installed, so no allocation is refused")
        return 0
    total, wrong = 0, []
    with tempfile.TemporaryDirectory() as room:
        folder = pathlib.Path(room)
        library = str(folder / "refused_memory.so")
        subprocess.run([compiler, "-shared", "-fPIC", "-O1", "-o", library, str(HERE / "refused_memory.c")], check=True)
        for name, content in FILES.items():
            (folder / name).write_bytes(content)
        made = run(program, ["asm2wasm", "usual.js"], folder)
        (folder / "usual.wasm").write_bytes(made[1])
        for command in COMMANDS:
            calls, gave_up, faults = sweep(program, command.split(), folder, library)
            print(f"{command}: {calls} allocations, {gave_up} runs end with status 9, {len(faults)} are wrong", *faults[:5], sep="\n  ")
            total, wrong = total + calls, wrong + faults
            # A run in which nothing can be refused would show nothing.
            wrong += [f"{command}: no run gave up"] * (gave_up == 0)
    print(f"{total} allocations refused, {len(wrong)} runs wrong")
    return 1 if wrong else 0


sys.exit(main())
