#!/usr/bin/env python3
"""tools/wat_tests.py PROGRAM [SEED [COUNT]]

What `PROGRAM wasm2wat` writes of random modules (those of tools/compare) is taken by wabt's `wat2wasm`, which makes the same module of it: its
canonical text is the same again. wabt leaves out an `else` without instructions; a module that is written with one has to come back without it.
Where wabt isn't installed nothing is compared, and a line says so. The status is 1 at a difference, and where too few modules were compared.
"""
import multiprocessing
import pathlib
import re
import shutil
import subprocess
import sys
import tempfile

sys.dont_write_bytecode = True
sys.path.insert(0, str(pathlib.Path(__file__).with_name("compare")))

from wasm_modules import WasmModule

LONGEST = 60  # seconds of a call
EMPTY_ELSE = re.compile(r"^else\n(?=end$)", re.M)


class Difference(Exception):
    pass


def told(*command):
    """What a command writes to standard output, where it ends well and writes no line of complaint."""
    ran = subprocess.run(command, stdin=subprocess.DEVNULL, capture_output=True, timeout=LONGEST)
    if ran.returncode != 0:
        raise Difference(f"{' '.join(command)} ended with {ran.returncode}: {ran.stderr.decode(errors='replace').strip()}")
    return ran.stdout.decode()


def there_and_back(program, folder, name):
    """Writes the text of the module in `name`.wasm, and compares it with that of what wabt makes of it. Gives the text's length."""
    text = told(program, "wasm2wat", f"{folder}/{name}.wasm")
    pathlib.Path(folder, f"{name}.wat").write_text(text)
    told("wat2wasm", f"{folder}/{name}.wat", "-o", f"{folder}/{name}_again.wasm")
    again = told(program, "wasm2wat", f"{folder}/{name}_again.wasm")
    if again != EMPTY_ELSE.sub("", text):
        lines = zip(text.splitlines(), again.splitlines())
        first = next((at for at, (a, b) in enumerate(lines) if a != b), 0)
        raise Difference(f"the text of what wabt made of it differs, first in line {first + 1}")
    return len(text)


def try_one(task):
    program, seed = task
    with tempfile.TemporaryDirectory() as folder:
        pathlib.Path(folder, "m.wasm").write_bytes(WasmModule(seed).module.bytes())
        try:
            return seed, there_and_back(program, folder, "m"), None
        except (Difference, subprocess.TimeoutExpired) as why:
            return seed, 0, str(why)


def main():
    if len(sys.argv) < 2:
        print(__doc__.split("\n")[0])
        return 2
    program = str(pathlib.Path(sys.argv[1]).resolve())
    seed = sys.argv[2] if len(sys.argv) > 2 else "1"
    count = int(sys.argv[3]) if len(sys.argv) > 3 else 300
    if not shutil.which("wat2wasm"):
        print("wat_tests: skipped: wabt is not installed")
        return 0
    with multiprocessing.Pool() as pool:
        found = pool.map(try_one, [(program, f"wat {seed} {k}") for k in range(count)])
    for name, _, why in found:
        if why:
            print(f"wat_tests: {name}: {why}")
    alike = [length for _, length, why in found if not why]
    print(f"wat_tests: {len(alike)} of {count} random modules are alike, {sum(alike)} bytes of text (seed {seed})")
    return 0 if len(alike) == count and sum(alike) > 100 * count else 1


if __name__ == "__main__":
    sys.exit(main())
