#!/usr/bin/env python3
"""python3 bench/wat.py PROGRAM [COUNT]: the text form, beside wabt's tools on the same files in the same run.

`wat2wasm` reads five texts, and `wasm2wat` the modules that they say. Each text is made for COUNT (20,000) functions, globals or segments and for a
tenth of them. A row has the processor seconds and the peak memory, each the least of RUNS runs (5, or the number of the environment's RUNS), the bytes
of memory for each byte of the text, the seconds as a share of wabt's, and how many times as much the long text takes as the short one."""
import os
import shutil
import subprocess
import sys
import tempfile

import wasm_module

RUNS = int(os.environ.get("RUNS", "5"))


def canonical(program, folder, count):
    """What `wasm2wat` writes of a module of so many functions."""
    path = os.path.join(folder, "canonical.wasm")
    with open(path, "wb") as out:
        out.write(wasm_module.module(count))
    return subprocess.run([program, "wasm2wat", path], check=True, stdout=subprocess.PIPE).stdout


def by_id(count):
    """Functions with ids for all that they name, which call each other."""
    function = """(func $function_{i} (type $unary) (param $argument i32) (result i32)
  (local $first i32) (local $second i64)
  local.get $argument
  local.get $argument
  i32.store offset={offset} align=4
  block $done
    local.get $argument
    i32.eqz
    br_if $done
    local.get $argument
    call $function_{called}
    local.set $first
  end
  local.get $first
  i32.const {i}
  i32.add
)
(export "f{i}" (func $function_{i}))
"""
    functions = (function.format(i=i, offset=4 * i % 65532, called=(7 * i + 1) % count) for i in range(count))
    return ("(module\n(type $unary (func (param i32) (result i32)))\n(memory $memory 1)\n" + "".join(functions) + ")\n").encode()


def one_body(count):
    """One function of five times as many turns of a loop that is written out."""
    turns = "".join(f"local.get 0\ni32.const {i}\ni32.add\nlocal.set 0\n" for i in range(5 * count))
    return f"(module\n(type (func (param i32)))\n(func (type 0)\n{turns})\n)\n".encode()


def small_fields(count):
    """Seven times as many globals."""
    return ("(module\n" + "".join(f"(global i32 (i32.const {i}))\n" for i in range(7 * count)) + ")\n").encode()


def data(count):
    """Segments of 200 bytes, one in thirteen of them an escape."""
    string = "".join("\\%02x" % (i % 32) if i % 13 == 0 else chr(65 + i % 26) for i in range(200))
    return ("(module\n(memory 100)\n" + "".join(f'(data (i32.const {150 * i}) "{string}")\n' for i in range(count)) + ")\n").encode()


def written(path, make, count):
    """Writes a text. A process of its own does, since what is measured begins as a copy of this one."""
    child = os.fork()
    if not child:
        with open(path, "wb") as out:
            out.write(make(count))
        os._exit(0)
    if os.waitpid(child, 0)[1]:
        sys.exit("a text isn't made")


def once(words):
    """Processor seconds and peak memory in bytes of one run."""
    quiet = [(os.POSIX_SPAWN_OPEN, end, os.devnull, os.O_WRONLY, 0) for end in (1, 2)]
    child = os.posix_spawnp(words[0], words, os.environ, file_actions=quiet)
    _, status, usage = os.wait4(child, 0)
    if status:
        sys.exit(f"failed: {' '.join(words)}")
    return usage.ru_utime + usage.ru_stime, usage.ru_maxrss * 1024


def least(words):
    runs = [once(words) for _ in range(RUNS)]
    return min(it[0] for it in runs), min(it[1] for it in runs)


def rows(name, tools, files):
    """The rows of the tools on the short and the long file, the first tool's with its share of the second's."""
    size = os.path.getsize(files[1])
    print(f"{name}, {size} bytes", flush=True)
    longs = {}
    for tool, words in tools:
        short, longs[tool] = (least(words(file)) for file in files)
        seconds, memory = longs[tool]
        growth = size / os.path.getsize(files[0])
        print(
            f"  {tool:7} {seconds:7.3f} s  {memory / 2**20:7.1f} MiB  {memory / size:5.1f} bytes each"
            f"  {seconds / max(short[0], 0.001):5.1f} times the seconds for {growth:.1f} times the length",
            flush=True,
        )
    if "wabt" in longs:
        seconds, memory = (ours / theirs for ours, theirs in zip(longs["bridge"], longs["wabt"]))
        print(f"  bridge takes {seconds:.2f} of the seconds, {memory:.2f} of the memory")


def pair(program, command):
    """Bridge's and wabt's command, with what they write thrown away."""
    tools = [("bridge", lambda file: [program, command, file])]
    if shutil.which(command):
        tools.append(("wabt", lambda file: [command, "-o", os.devnull, file]))
    return tools


def main():
    program, count = os.path.abspath(sys.argv[1]), int(sys.argv[2]) if len(sys.argv) > 2 else 20_000
    with tempfile.TemporaryDirectory() as folder:
        texts = {
            "canonical text of functions": lambda n: canonical(program, folder, n),
            "functions that call each other by id": by_id,
            "one large body": one_body,
            "small fields": small_fields,
            "data": data,
        }
        for name, make in texts.items():
            files, modules = [], []
            for n in (count // 10, count):
                files.append(os.path.join(folder, f"{n}.wat"))
                modules.append(os.path.join(folder, f"{n}.wasm"))
                written(files[-1], make, n)
                with open(modules[-1], "wb") as out:
                    subprocess.run([program, "wat2wasm", files[-1]], check=True, stdout=out)
            rows(f"wat2wasm: {name}", pair(program, "wat2wasm"), files)
            rows(f"wasm2wat: {name}", pair(program, "wasm2wat"), modules)


if __name__ == "__main__":
    if len(sys.argv) < 2:
        sys.exit(__doc__)
    main()
