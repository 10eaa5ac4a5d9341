// Made by Bridge's host/pack.mjs of "life.js" and "life.wasm".
var lifeWasm = (() => {
const host = (() => {
"use strict";
// Loads what `bridge asm2wasm` writes as the module function of asm.js links the text of which it was made.

const PAGE = 65536;

/** Whether asm.js allows a heap of so many bytes: a power of two from 2^12 to 2^23, or a multiple of 2^24. */
const isHeapLength = (length) => length >= 2 ** 12 && length <= 2 ** 28 && (length <= 2 ** 23 ? Number.isInteger(Math.log2(length)) : length % 2 ** 24 === 0);

/** The memory for a heap: one of this length, or the one that is given. @throws {TypeError} where asm.js has no heap of this length */
function memoryOf(heap) {
  if (heap instanceof WebAssembly.Memory) return heap;
  if (typeof heap !== "number" || !isHeapLength(heap)) throw new TypeError(`heap: ${heap}: a length that asm.js allows, or a WebAssembly.Memory, is due`);
  const pages = Math.ceil(heap / PAGE);
  return new WebAssembly.Memory({ initial: pages, maximum: pages });
}

/** The member of the foreign object that is imported. @throws {TypeError} where it is missing or of another kind */
function memberOf({ name, kind }, foreign) {
  const member = Object(foreign)[name];
  if (kind === "function" && typeof member !== "function") throw new TypeError(`foreign.${name}: a function is due`);
  if (kind === "global" && typeof member !== "number" && typeof member !== "boolean") throw new TypeError(`foreign.${name}: a number is due`);
  return kind === "global" ? member | 0 : member;
}

/** The imports object's `env`. It is read once for each import, and where several have one name, as a foreign member and the memory may, gives them in order. */
function environmentOf(items, values) {
  const members = new Map();
  items.forEach(({ name }, k) => members.set(name, [...(members.get(name) ?? []), values[k]]));
  const environment = {};
  for (const [name, list] of members) Object.defineProperty(environment, name, { get: () => (list.length > 1 ? list.shift() : list[0]) });
  return environment;
}

/**
 * Links a module as a call of asm.js's module function does.
 * @param {BufferSource | WebAssembly.Module} bytes what `bridge asm2wasm` wrote, or that compiled
 * @param {object} stdlib what asm.js is given; WebAssembly needs none of it
 * @param {object} foreign functions, which get signed ints and whose results are taken as ints, and numbers for what the text has as `foreign.name|0`.
 *   What a function throws passes through, and it may call exports
 * @param {number | WebAssembly.Memory} [heap] the heap's length in bytes, as it was given to `bridge asm2wasm`; or the memory of another module, which then is shared
 * @param {{ returns?: "object" | "function" }} [how] "function" where the text returns one function, which the module doesn't say
 * @returns {{ exports: object | Function, buffer?: ArrayBuffer, memory?: WebAssembly.Memory }} what the text returned; and the heap's bytes, if it has a heap:
 *   whole pages, of which a heap below 65,536 bytes is the beginning
 * @throws {TypeError | WebAssembly.LinkError} where the heap has another length, or a foreign member is missing or of another kind: before anything runs
 */
function linkAsm(bytes, stdlib, foreign, heap, { returns = "object" } = {}) {
  const module = bytes instanceof WebAssembly.Module ? bytes : new WebAssembly.Module(bytes);
  const items = WebAssembly.Module.imports(module), keys = WebAssembly.Module.exports(module);
  const other = items.find((item) => item.module !== "env" || item.kind === "table") ?? keys.find((item) => item.kind !== "function");
  if (other) throw new TypeError(`${other.name}: not of a module that asm2wasm writes`);
  if (returns === "function" && keys.length !== 1) throw new TypeError(`returns: the module has ${keys.length} functions`);
  const memory = items.some((item) => item.kind === "memory") ? memoryOf(heap) : undefined;
  const values = items.map((item) => (item.kind === "memory" ? memory : memberOf(item, foreign)));
  const { exports } = instanceOf(module, environmentOf(items, values));
  return { exports: returns === "function" ? exports[keys[0].name] : { ...exports }, ...(memory && { buffer: memory.buffer, memory }) };
}

/** All members have been looked at, so that what doesn't link is the memory. @throws {WebAssembly.LinkError} where it has another length */
function instanceOf(module, env) {
  try {
    return new WebAssembly.Instance(module, { env });
  } catch (error) {
    if (error instanceof WebAssembly.LinkError) throw new WebAssembly.LinkError(`heap: ${error.message}`);
    throw error;
  }
}
return { linkAsm };
})();
const bytes = Uint8Array.from(atob("AGFzbQEAAAABEwRgAAF/YAAAYAJ/fwF/YAF/AX8CHQIDZW52BnJhbmRvbQAAA2VudgZtZW1vcnkCASAgAwcGAQICAAEDBgYBfwFBAAsHDgIDc293AAEEZHJhdwAGCuoEBlgBBH9BACQAAkADQCAAQYCADEhFDQECQCAAQR9xQQBGBEAQACEBCyAAIAFBA3FBAEYhAyICQYCAgAFJBEAgAiADOgAACyABQQF2IQELIABBAWohAAwACwsLIwEBfyAAIAFB/wNxaiICQYCAgAFJBH8gAi0AAAVBAAtBAEcLHAAgACABQQFrEAIgACABEAJqIAAgAUEBahACaguZAgELf0GAgAwjAGshBQJAA0AgAEGAA0hFDQECQCMAIABB/wJqQYADIQohCSAKBH8gCSAKbwVBAAtBCXRqIQIjACAAQQl0aiEDIwAgAEEBakGAAyEKIQkgCgR/IAkgCm8FQQALQQl0aiEEQQAhAQJAA0AgAUGABEhFDQECQCADIAFqIglBgICAAUkEfyAJLQAABUEACyEGIAIgARADIAMgARADaiAEIAEQA2ohByAHQQNGIAdBBEYgBkEAR3FyBEAgBiAGQf8BR2ohBgVBACEGCyAFIABBCXRqIAFqIAYhCiIJQYCAgAFJBEAgCSAKOgAACyAIIAZBAEdqIQgLIAFBAWohAQwACwsLIABBAWohAAwACwsgBSQAIAgLiwEBBX8CQANAIABBgIAMSEUNAQJAIwAgAGoiA0GAgIABSQR/IAMtAAAFQQALIQFBkLCgeSECIAEEQEGAgIB4IAFBEHRyQf8BIAFrQQh0ckH/ASABQQF1a3IhAgtBgIDAACAAQQJ0akF8cSACIQQiA0GAgIABSQRAIAMgBDYCAAsLIABBAWohAAwACwsLJgEBfwJAA0AgAEEASkUNAQJAEAQhAQsgAEEBayEADAALCxAFIAEL"), (c) => c.charCodeAt(0));
const linkAsm = (stdlib, foreign, heap = 2097152) => host.linkAsm(bytes, stdlib, foreign, heap, { returns: "object" });
return { linkAsm };
})();
