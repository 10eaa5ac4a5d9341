// node zeros.mjs FILE
// A host of the module of WebAssembly that `bridge asm2wasm zeros.js` writes. But for the line that loads it, it is as it was for the text.
import { readFileSync } from "node:fs";
import { linkAsm } from "../host/wasm.mjs";

// 1. The foreign object, as the text has it.
const foreign = { report: (count) => console.log(`reported ${count}`) };

// 2. In place of `zeros(globalThis, foreign, heap)`: the length of the heap, whose buffer comes with the exports.
const { exports, buffer } = linkAsm(readFileSync(process.argv[2]), globalThis, foreign, 65536);
const heap = new Uint8Array(buffer);

// 3. The exports have their keys' names, and take and give numbers.
heap.set([10, 11, 12], 16);
console.log(`${exports.count(0, 32)} zeros`);
