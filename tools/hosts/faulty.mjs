// What hosts refuse before anything runs, with the field that the error names.
import { Memory } from "../../host/asm.mjs";
import { I32, I64, call, const32, const64, fill, get, load, store } from "./encode.mjs";

const own = (type, code) => ({ type, code });

/** A module with an import of each kind, whose start function writes, calls one, and fills no bytes, so that its text says how long the memory is. */
export const ASKING = {
  types: [[[I32], [I32]], [[], [I64]], [[], []], [[I64, I32], [I64]]],
  imports: [
    { module: "env", name: "f", kind: "function", type: 0 },
    { module: "other", name: "w", kind: "function", type: 1 },
    { module: "env", name: "g", kind: "global", type: I32 },
    { module: "env", name: "memory", kind: "memory", least: 1, most: 1 },
  ],
  functions: [own(2, [const32(0), const32(1), call(0), store(), const32(0), const32(0), const32(0), fill()]), own(0, [get(0), call(0)]), own(3, [call(1)]), own(0, [get(0), load()])],
  exports: [["run", "function", 3], ["wide", "function", 4], ["at", "function", 5], ["memory", "memory", 0]],
  start: 2,
};

const detached = (memory) => {
  structuredClone(memory.buffer, { transfer: [memory.buffer] });
  return memory;
};

/** What ASKING is given, with these fields in place of the good ones. */
export function given(env = {}, other) {
  const log = [];
  const f = (x) => (log.push(x), x);
  const imports = { env: { f, g: 5, memory: new WebAssembly.Memory({ initial: 1, maximum: 1 }), ...env }, other: { w: () => 5n, ...other } };
  return { imports, log };
}

// How it is given, the field that the error names, and the class where the engine takes it.
const F = 'import "env" "f"', W = 'import "other" "w"', G = 'import "env" "g"', M = 'import "env" "memory"';
export const FAULTY_IMPORTS = [
  [undefined, F], [{}, F], [{ env: 5 }, F], [{ env: undefined }, F],
  [{ ...given().imports, other: undefined }, W],
  ...[undefined, null, 5, {}, "f"].map((f) => [given({ f }).imports, F]),
  ...[undefined, 5n].map((w) => [given({}, { w }).imports, W]),
  ...[undefined, null, "5", 5n, true, {}, () => 5].map((g) => [given({ g }).imports, G]),
  [given({ g: new WebAssembly.Global({ value: "i64" }, 5n) }).imports, G],
  [given({ g: new WebAssembly.Global({ value: "i32", mutable: true }, 5) }).imports, G],
  ...[undefined, null, 5, {}, new ArrayBuffer(65536), new Uint8Array(65536), new WebAssembly.Memory({ initial: 0, maximum: 1 })].map((memory) => [given({ memory }).imports, M]),
];

/** The engine takes these, or can't be given them; asm.js can't. */
export const FAULTY_MEMORIES = [
  new Memory({ initial: 0 }), new Memory({ initial: 2 }), detached(new Memory({ initial: 1 })),
  new WebAssembly.Memory({ initial: 2, maximum: 2 }), new WebAssembly.Memory({ initial: 1, maximum: 1, shared: true }),
].map((memory) => [given({ memory }).imports, M]);

/** Other modules than ASKING, whose texts aren't its text, and the field in which they differ. */
const changed = (change) => ({ ...ASKING, ...change });
const imported = (k, change) => changed({ imports: ASKING.imports.map((item, at) => (at === k ? { ...item, ...change } : item)) });
export const ASKING_FOR_THREE = imported(3, { least: 3, most: 3 });
export const OTHER_MODULES = [
  [imported(0, { name: "h" }), F], [imported(1, { module: "env" }), W], [imported(2, { name: "h" }), G], [imported(3, { least: 2, most: 2 }), "memory"],
  [imported(1, { name: "w2" }), W],
  [changed({ imports: [...ASKING.imports, { module: "env", name: "more", kind: "function", type: 2 }], functions: ASKING.functions.slice(1), start: 2 }), "imports"],
  [changed({ imports: ASKING.imports.slice(0, 3), functions: [own(2, []), ...ASKING.functions.slice(1, 3), own(0, get(0))], exports: ASKING.exports.slice(0, 3) }), "memory"],
  [changed({ exports: ASKING.exports.slice(1) }), "exports"], [changed({ exports: [["ran", "function", 3], ...ASKING.exports.slice(1)] }), "exports"],
  [changed({ exports: [["run", "function", 5], ["wide", "function", 4], ["at", "function", 3]] }), "exports"],
  [changed({ types: [...ASKING.types.slice(0, 3), [[I32, I64], [I64]]] }), 'export "wide"'],
  [{ ...imported(1, { type: 4 }), types: [...ASKING.types, [[I32], [I64]]], functions: ASKING.functions.map((f) => (f.type === 3 ? own(3, [get(1), call(1)]) : f)) }, W],
  [changed({ start: undefined }), "start"],
];

export const FAULTY_TEXTS = (text) => [
  `alert(1);\n${text}`, `${text}\nalert(1);`, text.slice(1), text.slice(0, -9),
  "", "function wasm(){}", "<!doctype html><p>Not found", "export default 5;", 'function wasm(stdlib,foreign,heap){"use asm";\nreturn{$init:$init,$hi:$hi,};}',
];

// ---- asm.js

export const TEXT = `function asking(stdlib, foreign, heap) {
  "use asm";
  var f = foreign.f, g = foreign.g | 0, u8 = new stdlib.Uint8Array(heap);
  function run(x) { x = x | 0; u8[0] = x; return (f(x | 0) | 0) + g | 0; }
  function other() { return 1; }
  return { run: run, other: other };
}`;

const good = { f: (x) => x, g: 5 };
export const FAULTY_FOREIGN = [
  [undefined, 65536, "foreign.f"], [null, 65536, "foreign.f"], [{}, 65536, "foreign.f"],
  ...[undefined, null, 5, {}, 5n].map((f) => [{ ...good, f }, 65536, "foreign.f"]),
  ...[undefined, null, "5", 5n, {}, () => 5].map((g) => [{ ...good, g }, 65536, "foreign.g"]),
  ...[undefined, null, "65536", 0, -1, 1, 65537, 4095, 3 * 65536, NaN, Infinity, 2 ** 29, 65536n].map((heap) => [good, heap, "heap"]),
  ...[new ArrayBuffer(65536), new Uint8Array(65536)].map((heap) => [good, heap, "heap"]),
  ...[131072, 2 ** 24, new WebAssembly.Memory({ initial: 1 }), new WebAssembly.Memory({ initial: 2, maximum: 2 })].map((heap) => [good, heap, "heap"]),
];
