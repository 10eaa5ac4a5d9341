#!/usr/bin/env python3
"""python3 tools/compare PROGRAM [--seed S] [--count N] [--kind KIND] [--keep FOLDER] [--only KIND NUMBER]

Random modules, N of asm.js and N of WebAssembly, and N pairs of the latter, each with a script: what PROGRAM prints of the session, and of the session of what it translates
the module to, is what node's engine shows of the same (of a pair: of two instances over one memory, and of what PROGRAM links it to); so is what it prints
of a text of asm.js in few units, where the engine counts them; each text's short form shows the same and is its own short form; and SpiderMonkey's validator takes each text of asm.js that PROGRAM writes.
Where node isn't installed nothing is compared, and where js102 isn't, no validator is asked; a line says so. Files of a difference are kept in FOLDER.
--kind tries modules of asm.js (asm), of WebAssembly (wasm), or pairs (link) alone. A difference names its module, as `asm 1000007`, which --only
tries alone."""
import argparse
import base64
import json
import multiprocessing
import os
import pathlib
import re
import shutil
import subprocess
import sys
import tempfile

sys.dont_write_bytecode = True

import spidermonkey
from asm_modules import AsmModule
from pairs import Pair
from scripts import import_name
from wasm_bytes import FUNCTION, GLOBAL, I64
from wasm_modules import WasmModule

STEPS = "10000000"
# Budgets of units that cut most sessions short, at which a short form shows what its text shows.
BUDGETS = "0 1 3 10 40 200".split()
# .. and at which a run shows what the engine shows of a text that counts them.
UNITS = [0, 1, 2, 3, 5, 9, 17, 40, 100, 400]
LONGEST = 60  # seconds of a call of the program
KINDS = "asm", "wasm", "link"
SOURCE = "the random module"
ENGINE = pathlib.Path(__file__).with_name("engine.mjs")


def heap_length(pages):
    """The shortest heap of asm.js that holds so many pages, up to 256."""
    return next(2**k for k in range(12, 25) if 2**k >= pages * 65536)


def shared_names(text):
    """What is seen of asm.js as it is seen of WebAssembly: a member that begins with `$x` has a longer name there."""
    return re.sub(r"^(import|end stopped|end no-reply) (\$x\S*)", lambda m: f"{m[1]} {import_name('env', m[2])}", text, flags=re.M)


def without_start(text):
    """What is seen without the end of the call of `$init`, which comes first but for what the start function shows."""
    return re.sub(r"^returned\n", "", text, count=1, flags=re.M)


def word_types(types):
    return ["i64" if t == I64 else "i32" for t in types]


class Difference(Exception):
    pass


class Unending(Exception):
    """The engine was still running the module at its limit of time."""


class Comparison:
    """A process of the engine, a folder, and what came of the sessions."""

    def __init__(self, program):
        self.program = program
        self.room = pathlib.Path(tempfile.mkdtemp(prefix="bridge-"))
        self.engine = subprocess.Popen(["node", "--stack-size=3900", ENGINE], stdin=subprocess.PIPE, stdout=subprocess.PIPE, text=True)
        self.sessions = 0  # that were alike
        self.texts = []  # of asm.js that the program wrote, by seed

    def close(self):
        self.engine.stdin.close()
        self.engine.wait()
        shutil.rmtree(self.room)

    def file(self, name, content):
        path = self.room / name
        path.write_bytes(content if isinstance(content, bytes) else content.encode())
        return path

    def asked(self, *words):
        """What the program writes."""
        done = subprocess.run([self.program, *words], stdout=subprocess.PIPE, stderr=subprocess.PIPE, timeout=LONGEST)
        if done.returncode:
            raise Difference(f"{words[0]}: status {done.returncode}: {done.stderr.decode('latin1').strip()}")
        return done.stdout

    def shown(self, what, **job):
        """What the engine shows of a session."""
        self.engine.stdin.write(json.dumps(job) + "\n")
        self.engine.stdin.flush()
        answer = json.loads(self.engine.stdout.readline())
        if "seen" in answer:
            return answer["seen"]
        unending = "SCRIPT_EXECUTION_TIMEOUT" in answer["why"] or "Maximum call stack size" in answer["why"]
        raise Unending() if unending and what == SOURCE else Difference(f"{what}: the engine: {answer['why']}")

    def same(self, what, wanted, seen):
        if wanted == seen:
            self.sessions += 1
            return
        pairs = zip(wanted.split("\n") + ["nothing"], seen.split("\n") + ["nothing"])
        line, (a, b) = next((k, pair) for k, pair in enumerate(pairs, 1) if pair[0] != pair[1])
        raise Difference(f"{what}: line {line}: {a!r} is due, and there is {b!r}")

    # ---- asm.js, and the module that it is translated to

    def asm(self, seed):
        case = AsmModule(seed)
        text, script = self.file("m.js", case.text), self.file("m.txt", case.script.text())
        job = case.script.for_engine() | {"text": case.text, "length": case.length, "hasHeap": bool(case.views)}
        job["calls"] = [{"name": c.name, "args": list(map(str, c.args))} for c in case.script.calls]
        job["imports"] = [{"field": f, "name": f} for f in case.imported]
        job["imports"] += [{"field": f, "value": str(v)} for f, v in case.script.globals.items()]
        wanted = self.shown(SOURCE, **job)
        heap = ["--heap", str(case.length)]
        self.same("run-asm", wanted, self.asked("run-asm", text, script, *heap, "--steps", STEPS).decode())
        for units in UNITS:
            cut = self.shown(SOURCE, **job | {"text": case.counted, "units": units})
            self.same(f"run-asm in {units} units", cut, self.asked("run-asm", text, script, *heap, "--steps", str(units)).decode())
        self.short("the text", text, job, wanted, script, heap)
        self.back_from_asm(case, self.asked("asm2wasm", text, *heap), shared_names(wanted))

    def short(self, what, text, job, wanted, script, heap):
        """Of a text of asm.js: its short form."""
        made = self.asked("shorten", text)
        short = self.file("short.js", made)
        if self.asked("shorten", short) != made:
            raise Difference(f"shorten: the short form of {what} isn't its own")
        self.same(f"the engine on the short form of {what}", wanted, self.shown(f"the short form of {what}", **job | {"text": made.decode()}))
        self.same(f"run-asm of the short form of {what}", wanted, self.asked("run-asm", short, script, *heap, "--steps", STEPS).decode())
        for units in BUDGETS:
            cut, cut_short = (self.asked("run-asm", it, script, *heap, "--steps", units).decode() for it in (text, short))
            self.same(f"run-asm of the short form of {what} in {units} units", cut, cut_short)

    def back_from_asm(self, case, made, wanted):
        case.script.globals = {import_name("env", name): value for name, value in case.script.globals.items()}
        script = self.file("made.txt", case.script.text())
        job = case.script.for_engine() | {"bytes": base64.b64encode(made).decode(), "split": False}
        pages = -(-case.length // 65536)
        job["memory"] = {"module": "env", "field": "memory", "pages": pages, "most": pages} if case.views else None
        job["imports"] = [{"module": "env", "field": f, "name": import_name("env", f)} for f in case.imported]
        job["imports"] += [{"module": "env", "field": f, "value": str(case.script.globals[import_name("env", f)])} for f in case.given]
        results = {name: ["i32"] * callee.result for name, callee in case.exports}
        job["calls"] = [{"export": c.name, "args": list(map(str, c.args)), "params": ["i32"] * len(c.args), "results": results[c.name]} for c in case.script.calls]
        self.same("the engine on the module of asm2wasm", wanted, self.shown("the module of asm2wasm", **job))
        seen = self.asked("run-wasm", self.file("made.wasm", made), script, "--steps", STEPS).decode()
        self.same("run-wasm of the module of asm2wasm", wanted, seen)

    # ---- WebAssembly, and the text that it is translated to

    def wasm(self, seed):
        case = WasmModule(seed)
        module, script = self.file("m.wasm", case.module.bytes()), self.file("m.txt", case.script.text())
        job = self.wasm_job(case)
        wanted = self.shown(SOURCE, **job, split=False)
        self.same("run-wasm", wanted, self.asked("run-wasm", module, script, "--steps", STEPS).decode())
        self.back_from_wasm(case, self.asked("wasm2js", module), self.shown(SOURCE, **job, split=True), seed)

    def wasm_job(self, case):
        job = case.script.for_engine() | {"bytes": base64.b64encode(case.module.for_engine()).decode(), "imports": []}
        for k, (item, name) in enumerate(zip(case.module.imports, case.import_names)):
            known = {"module": "import", "field": str(k), "name": name}
            if item.kind == FUNCTION:
                params, results = case.module.types[item.detail]
                job["imports"].append(known | {"params": word_types(params), "results": word_types(results)})
            elif item.kind == GLOBAL:
                job["imports"].append(known | {"value": str(case.script.globals[name])})
        pages, most = case.limits or (0, None)
        memory = {"module": "import", "field": "memory", "pages": pages, "most": most}
        job["memory"] = memory if case.limits else None
        numbers = {name: f"f{k}" for k, name in enumerate(case.exported)}
        job["calls"] = [{"export": numbers[c.name], "args": list(map(str, c.args)), "params": word_types(c.params), "results": word_types(c.results)} for c in case.script.calls]
        return job

    def back_from_wasm(self, case, made, wanted, seed):
        self.texts.append((seed, made))
        split = case.script.split()
        text, script, length = self.file("made.js", made), self.file("made.txt", split.text()), heap_length(case.pages or 0)
        job = split.for_engine() | {"text": made.decode(), "length": length, "hasHeap": case.limits is not None}
        job["calls"] = [{"name": c.name, "args": list(map(str, c.args))} for c in split.calls]
        names = {name for item, name in zip(case.module.imports, case.import_names) if item.kind == FUNCTION}
        job["imports"] = [{"field": f, "name": f} for f in sorted(names | {"$trap", "$high"})]
        job["imports"] += [{"field": f, "value": str(v)} for f, v in split.globals.items()]
        shown, heap = self.shown("the text of wasm2js", **job), ["--heap", str(length)]
        self.same("the engine on the text of wasm2js", wanted, without_start(shown))
        seen = self.asked("run-asm", text, script, *heap, "--steps", STEPS).decode()
        self.same("run-asm of the text of wasm2js", wanted, without_start(seen))
        self.short("the text of wasm2js", text, job, shown, script, heap)


    # ---- two modules, and the one that they are linked to

    def link(self, seed):
        case = Pair(seed)
        first, second = (self.file(f"{name}.wasm", c.module.bytes()) for name, c in zip(("first", "second"), case.cases))
        script = self.file("m.txt", case.script.text())
        wanted = self.shown(SOURCE, **self.pair_job(case))
        linked = self.file("linked.wasm", self.asked("link", first, second))
        seen = self.asked("run-wasm", linked, script, "--steps", STEPS).decode()
        if "end trap 5 or 6" in wanted:
            seen = re.sub(r"^end trap [56]$", "end trap 5 or 6", seen, flags=re.M)
        self.same("run-wasm of the linked module", wanted, seen)
        self.asked("check-wasm", linked)

    def pair_job(self, case):
        job = case.script.for_engine() | {"modules": [], "imports": [], "split": False, "calls": []}
        numbers = [{name: f"f{k}" for k, (name, kind, _) in enumerate(c.module.exports) if kind == FUNCTION} for c in case.cases]
        for side, c in enumerate(case.cases):
            asked = []
            for k, (item, name) in enumerate(zip(c.module.imports, c.import_names)):
                known = {"module": "import", "field": str(k), "name": name}
                bound = case.bound(c, item)
                if bound is not None:
                    asked.append(known | {"bound": numbers[1 - side][bound]})
                elif item.kind == FUNCTION:
                    params, results = c.module.types[item.detail]
                    asked.append(known | {"params": word_types(params), "results": word_types(results)})
                elif item.kind == GLOBAL:
                    asked.append(known | {"value": str(case.script.globals[name])})
            job["modules"].append({"bytes": base64.b64encode(c.module.for_engine()).decode(), "imports": asked})
        job["memory"] = None if case.pages is None else {"pages": case.pages, "most": case.most}
        for call in case.script.calls:
            side = 0 if call.name in numbers[0] else 1
            known = {"side": side, "export": numbers[side][call.name], "args": list(map(str, call.args))}
            job["calls"].append(known | {"params": word_types(call.params), "results": word_types(call.results)})
        return job


def compare(task):
    """The differences in some modules, and how many sessions were alike, texts validated, and sessions without end."""
    program, seeds, keep = task
    comparison = Comparison(program)
    differences, unending = [], 0
    for kind, seed in seeds:
        try:
            getattr(comparison, kind)(seed)
        except Unending:
            unending += 1
        except Exception as error:
            differences.append(f"{kind} {seed}: {error if isinstance(error, Difference) else repr(error)}")
            if keep:
                shutil.copytree(comparison.room, keep / f"{kind}-{seed}", dirs_exist_ok=True)
    validated = 0
    if comparison.texts and shutil.which("js102"):
        refused = list(spidermonkey.refusals([text for _, text in comparison.texts]))
        differences += [f"wasm {comparison.texts[k][0]}: SpiderMonkey's validator: {why}" for k, why in refused]
        validated = len(comparison.texts) - len(refused)
    comparison.close()
    return differences, comparison.sessions, validated, unending


def main():
    parser = argparse.ArgumentParser(description=__doc__, formatter_class=argparse.RawDescriptionHelpFormatter)
    parser.add_argument("program", type=os.path.abspath)
    parser.add_argument("--seed", type=int, default=1)
    parser.add_argument("--count", type=int, default=1000)
    parser.add_argument("--kind", choices=KINDS)
    parser.add_argument("--keep", type=pathlib.Path)
    parser.add_argument("--only", nargs=2)
    options = parser.parse_args()
    if not shutil.which("node"):
        print("compare: skipped: node is not installed")
        return 0
    if not shutil.which("js102"):
        print("compare: skipped: js102 is not installed, so no validator of asm.js is asked")
    if options.only:
        seeds = [(options.only[0], int(options.only[1]))]
    else:
        print(f"compare: seed {options.seed}", flush=True)
        seeds = [(kind, options.seed * 1000000 + k) for k in range(options.count) for kind in KINDS if options.kind in (None, kind)]
    tasks = [(options.program, seeds[k:k + 50], options.keep) for k in range(0, len(seeds), 50)]
    with multiprocessing.Pool() as pool:
        answers = pool.map(compare, tasks, chunksize=1)
    for line in sorted(line for differences, *_ in answers for line in differences):
        print(f"differs: {line}")
    differences, sessions, validated, unending = (sum(len(a[k]) if k == 0 else a[k] for a in answers) for k in range(4))
    print(f"compare: {len(seeds)} modules and pairs, {sessions} sessions alike, {validated} texts validated, {unending} sessions without end, {differences} differences")
    # Sessions that don't end show nothing; there are few. Of others 21 are alike of a module of asm.js, 11 of one of WebAssembly and one of a pair.
    few = sessions == 0 or unending * 10 > len(seeds) or not (options.only or options.kind) and 3 * sessions < 33 * (len(seeds) - 3 * unending)
    if few and not differences:
        print("compare: too few sessions were held against each other")
    return 1 if differences or few else 0


if __name__ == "__main__":
    sys.exit(main())
