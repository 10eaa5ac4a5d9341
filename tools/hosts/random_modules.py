#!/usr/bin/env python3
"""random_modules.py COUNT SEED: random modules of WebAssembly and of asm.js with scripts, in turn, COUNT of each: a line of JSON for each, for tools/host_tests.mjs.

They are those of tools/compare, whose names are kept. A module of WebAssembly with a memory of its own exports it, so that the host can read and write it."""
import base64
import json
import pathlib
import sys

sys.dont_write_bytecode = True
sys.path.insert(0, str(pathlib.Path(__file__).resolve().parent.parent / "compare"))

from asm_modules import AsmModule
from wasm_bytes import FUNCTION, GLOBAL, I64, MEMORY
from wasm_modules import WasmModule

MEMORY_EXPORT = "the memory"


def word_types(types):
    return ["i64" if t == I64 else "i32" for t in types]


def wasm(seed):
    case = WasmModule(seed)
    if case.limits is not None:
        case.module.exports.append((MEMORY_EXPORT, MEMORY, 0))
    imports = []
    for item, name in zip(case.module.imports, case.import_names):
        known = {"module": item.module, "name": item.field}
        if item.kind == FUNCTION:
            imports.append(known | {"kind": "function", "results": word_types(case.module.types[item.detail][1])})
        elif item.kind == GLOBAL:
            imports.append(known | {"kind": "global", "value": case.script.globals[name]})
        else:
            least, most = item.detail
            imports.append(known | {"kind": "memory", "pages": least, "most": most})
    calls = [{"name": c.name, "args": list(map(str, c.args)), "params": word_types(c.params)} for c in case.script.calls]
    return {"language": "wasm", "bytes": base64.b64encode(case.module.bytes()).decode(), "imports": imports, "pages": case.pages, "calls": calls} | case.script.for_engine()


def asm(seed):
    case = AsmModule(seed)
    calls = [{"name": c.name, "args": list(map(str, c.args))} for c in case.script.calls]
    one = len(case.exports) == 1 and "{" not in case.text[case.text.rindex("return"):]
    known = {"language": "asm", "text": case.text, "length": case.length, "hasHeap": bool(case.views), "returns": "function" if one else "object"}
    return known | {"functions": case.imported, "values": case.script.globals, "calls": calls} | case.script.for_engine()


def main():
    if len(sys.argv) != 3:
        sys.exit(__doc__)
    count, seed = map(int, sys.argv[1:])
    for k in range(count):
        for make in (wasm, asm):
            print(json.dumps({"seed": seed * 1000000 + k} | make(seed * 1000000 + k)))


main()
