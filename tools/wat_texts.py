#!/usr/bin/env python3
"""tools/wat_texts.py PROGRAM [SEED [COUNT]]

Texts of WebAssembly, random and altered token by token, under `PROGRAM wat2wasm` and under wabt's. What the program takes wabt takes too, as the same
module; and wabt takes nothing that the program refuses but where the text may be in another grammar than the program's (row C2 and C6: wabt reads
folded instructions and inline exports, and a type use may be left out), or names a number that wabt takes modulo 2^32 (C3).
Where wabt isn't installed nothing is compared, and a line says so. The status is 1 at a difference, and where too few texts were compared.
"""
import collections
import multiprocessing
import pathlib
import random
import re
import shutil
import subprocess
import sys
import tempfile

sys.dont_write_bytecode = True
sys.path.insert(0, str(pathlib.Path(__file__).with_name("compare")))

from wasm_modules import WasmModule

LONGEST = 60  # seconds of a call
# What the program leaves out, wabt is told to leave out, where it can be.
WABT = ["wat2wasm", "--disable-saturating-float-to-int", "--disable-simd", "--disable-multi-value", "--disable-reference-types"]
TOKEN = re.compile(r'"(?:[^"\\]|\\.)*"|\(;.*?;\)|;;[^\n]*|[()]|[^\s()";]+')
LINE = re.compile(r"(wat|wasm) refused: (\w+)")
EMPTY_ELSE = re.compile(r"^else\n(?=end$)", re.M)
# Rows that say nothing of wabt's grammar and limits.
ELSEWHERE = {"C2", "C3", "C6", "C8", "C9"}


class Difference(Exception):
    pass


def ran(*command):
    return subprocess.run(command, stdin=subprocess.DEVNULL, capture_output=True, timeout=LONGEST)


class Texts:
    """A random module's canonical text, and texts that are like it."""

    def __init__(self, program, folder, seed):
        self.program, self.folder, self.random = program, folder, random.Random(f"texts {seed}")
        path = folder / "m.wasm"
        path.write_bytes(WasmModule(seed).module.bytes())
        self.tokens = TOKEN.findall(ran(program, "wasm2wat", str(path)).stdout.decode())

    def with_ids(self):
        """The same with an id for each function, and calls by it."""
        tokens, number, out = self.tokens, -1, []
        for k, token in enumerate(tokens):
            out.append(token)
            if token == "func" and tokens[k - 1] == "(" and (k < 2 or tokens[k - 2] not in ("type",)) and tokens[k + 1:k + 3] == ["(", "type"]:
                number += 1
                out.append(f"$f{number}")
            elif token in ("call", "start") and k + 1 < len(tokens):
                out.append(f"$f{tokens[k + 1]}")
        return self._without_numbers(out)

    def _without_numbers(self, tokens):
        out, skip = [], False
        for token in tokens:
            if skip:
                skip = False
                continue
            out.append(token)
            skip = token.startswith("$f") and len(out) > 1 and out[-2] in ("call", "start")
        return out

    def altered(self):
        """The text with one to three tokens taken out, doubled, exchanged or replaced."""
        tokens = list(self.with_ids() if self.random.random() < 0.4 else self.tokens)
        for _ in range(self.random.choice([1, 1, 2, 3])):
            k = self.random.randrange(len(tokens))
            kind = self.random.random()
            if kind < 0.2:
                del tokens[k]
            elif kind < 0.35:
                tokens.insert(k, tokens[k])
            elif kind < 0.5 and k + 1 < len(tokens):
                tokens[k], tokens[k + 1] = tokens[k + 1], tokens[k]
            elif kind < 0.8:
                tokens[k] = self.random.choice([t for t in self.tokens if t[0] == tokens[k][0]] or self.tokens)
            else:
                tokens[k] = self.random.choice(["0", "1", "0x1f", "007", "$x", '"a"', "i32.add", "drop", "nop", "else", "end", "(;a;)", "align=4", "offset=8", "i64", "local.get", "3", "br"])
        return tokens

    def spelled(self, tokens):
        return "".join(t + self.random.choice([" ", " ", "\n", "\t", " (; c ;) ", " ;; l\n"]) for t in tokens)


def verdict_of(texts, text):
    """The program's row, or None and the canonical text of the module; and the same of wabt, without a row."""
    folder, program = texts.folder, texts.program
    (folder / "t.wat").write_text(text)
    ours = ran(program, "wat2wasm", str(folder / "t.wat"))
    row = LINE.match(ours.stderr.decode())
    if ours.returncode and not row:
        raise Difference(f"status {ours.returncode}: {ours.stderr.decode()}")
    theirs = ran(*WABT, str(folder / "t.wat"), "-o", str(folder / "theirs.wasm"))
    return (row[2] if ours.returncode else None), ours.stdout, theirs.returncode == 0, theirs.stderr.decode()


def canonical(texts, name):
    shown = ran(texts.program, "wasm2wat", str(texts.folder / name))
    if shown.returncode:
        raise Difference(f"wabt's module isn't read: {shown.stderr.decode().strip()}")
    return shown.stdout.decode()


def compared(texts, text):
    """What came of one text."""
    row, made, taken, why = verdict_of(texts, text)
    if row is None:
        if not taken:
            raise Difference(f"the program takes a text that wabt refuses: {why.strip()[:300]}")
        (texts.folder / "ours.wasm").write_bytes(made)
        if EMPTY_ELSE.sub("", canonical(texts, "ours.wasm")) != canonical(texts, "theirs.wasm"):
            raise Difference("the program and wabt make different modules")
        return "taken by both"
    if not taken:
        return "refused by both"
    if row not in ELSEWHERE:
        raise Difference(f"wabt takes a text that the program refuses: {row}")
    return "of another grammar"


def try_one(task):
    program, seed = task
    found = []
    with tempfile.TemporaryDirectory() as room:
        texts = Texts(program, pathlib.Path(room), seed)
        cases = [texts.tokens, texts.with_ids()] + [texts.altered() for _ in range(8)]
        for k, tokens in enumerate(cases):
            text = texts.spelled(tokens)
            try:
                what = compared(texts, text)
                if k < 2 and what != "taken by both":
                    raise Difference(what)
                found.append((what, None))
            except (Difference, subprocess.TimeoutExpired) as why:
                found.append(("differs", f"{seed}, text {k}: {why}\n{text[:2000]}"))
    return found


def main():
    if len(sys.argv) < 2:
        print(__doc__.split("\n")[0])
        return 2
    program = str(pathlib.Path(sys.argv[1]).resolve())
    seed = sys.argv[2] if len(sys.argv) > 2 else "1"
    count = int(sys.argv[3]) if len(sys.argv) > 3 else 40
    if not shutil.which("wat2wasm"):
        print("wat_texts: skipped: wabt is not installed")
        return 0
    with multiprocessing.Pool() as pool:
        found = [it for each in pool.map(try_one, [(program, f"texts {seed} {k}") for k in range(count)]) for it in each]
    for _, why in found:
        if why:
            print(f"wat_texts: {why}")
    counts = collections.Counter(what for what, _ in found)
    print(f"wat_texts: {len(found)} texts, {', '.join(f'{n} {what}' for what, n in sorted(counts.items()))} (seed {seed})")
    few = counts["taken by both"] * 5 < len(found) or counts["refused by both"] * 5 < len(found)
    return 1 if few or counts["differs"] else 0


if __name__ == "__main__":
    sys.exit(main())
