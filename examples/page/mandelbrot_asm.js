// Made by Bridge's host/pack.mjs of "mandelbrot.wasm" and "mandelbrot.js".
var mandelbrotAsm = (() => {
const host = (() => {
"use strict";
// Loads what `bridge wasm2js` writes as `WebAssembly.instantiate` loads the module of which it was made, also where WebAssembly is missing.
// docs/USAGE.md says how such a text is called; all of that is done here. Signatures are what signatures.mjs reads from the module.

const PAGE = 65536;

/** The kind of each trap by its number less one, and V8's message for it. Of the two for a divisor 0 it is the one of a quotient. */
const TRAPS = [
  ["Unreachable", "unreachable"],
  ["Memory", "memory access out of bounds"],
  ["ZeroDivisor", "divide by zero"],
  ["Overflow", "divide result unrepresentable"],
  ["TableEntry", "table index is out of bounds"],
  ["OtherType", "null function or function signature mismatch"],
  ["Segment", "segment is out of bounds"],
];

/** WebAssembly's own class of errors of this name, or one like it where WebAssembly is missing. */
function errorClass(name) {
  const made = class extends Error {};
  made.prototype.name = name;
  return globalThis.WebAssembly?.[name] ?? made;
}

/** What a trap throws, with its `kind` (a word) and its `number` (1 to 7, which is what the text calls `$trap` with). */
const RuntimeError = errorClass("RuntimeError");

/** What is thrown where an import is of the wrong kind, or a text isn't of the module that has the signatures. */
const LinkError = errorClass("LinkError");

/** What kind of object this is, also where it is of another frame. */
const tagOf = (value) => Object.prototype.toString.call(value).slice(8, -1);

/** The length of the shortest heap that asm.js allows for so many pages: a power of two from 2^12 to 2^23, or a multiple of 2^24. */
const heapLength = (pages) => (pages > 128 ? Math.ceil(pages / 256) * 256 * PAGE : 2 ** Math.max(12, Math.ceil(Math.log2(pages * PAGE))));

/** A memory of a fixed length, which stands where `WebAssembly.Memory` does in imports and among exports. */
class Memory {
  #pages;
  #buffer;

  /**
   * @param {{ initial: number, maximum?: number }} limits in pages of 65,536 bytes, from 0 to 4,096; it never grows
   * @throws {RangeError} where they are no such numbers
   */
  constructor({ initial, maximum = initial }) {
    if (!Number.isInteger(initial) || initial < 0 || initial > 4096) throw new RangeError(`Memory: initial: ${initial} pages`);
    if (!(maximum >= initial)) throw new RangeError(`Memory: maximum: ${maximum} pages, and ${initial} at first`);
    this.#pages = initial;
    this.#buffer = new ArrayBuffer(heapLength(initial));
  }

  /** The heap: an ArrayBuffer as long as asm.js needs. The module has its first `byteLength` bytes. */
  get buffer() {
    return this.#buffer;
  }

  /** How many bytes the module's pages have. */
  get byteLength() {
    return this.#pages * PAGE;
  }

  /** A Uint8Array of the module's pages, and of no byte past them. */
  get bytes() {
    return new Uint8Array(this.#buffer, 0, this.byteLength);
  }

  /** @throws {RangeError} always */
  grow() {
    throw new RangeError("Memory: grow: a heap of asm.js has a fixed length");
  }

  get [Symbol.toStringTag]() {
    return "WebAssembly.Memory";
  }
}

// ---- names, as crates/session_lang/specs/Names.antt spells them

/** Whether a name may stand in asm.js as it is. */
const isPlain = (name) => /^[A-Za-z_$][\w$]*$/.test(name) && name !== "__proto__";

/** The bytes of a name in hexadecimal. */
const hex = (name) => encodeURIComponent(name).replace(/%(..)|./g, (char, code) => (code ? code.toLowerCase() : char.charCodeAt(0).toString(16)));

/** The foreign member that stands for an import, and the key that stands for an export. */
const importName = ({ module, name }) => (module === "env" && isPlain(name) && !name.startsWith("$x") ? name : `$x${hex(module)}$${hex(name)}`);
const exportName = ({ name }) => (isPlain(name) && !name.startsWith("$") ? name : `$x${hex(name)}`);

/** How an error names an import, or an export. */
const fieldOf = ({ module, name }) => (module === undefined ? `export ${JSON.stringify(name)}` : `import ${JSON.stringify(module)} ${JSON.stringify(name)}`);

/** The imports, or exports, of a kind. */
const ofKind = (kind, items) => items.filter((item) => item.kind === kind);

// ---- words: one of 32 bits is a Number, and one of 64 a BigInt, which asm.js takes as two ints, the low one first

/** A value as the JS API takes it for a type. @throws {TypeError} for a BigInt where an i32 is due, and for a Number where an i64 is */
function wordOf(type, value, field) {
  if (type === "i32" && typeof value !== "bigint") return value | 0;
  if (type === "i64" && typeof value !== "number" && value !== undefined) return BigInt.asIntN(64, value);
  throw new TypeError(`${field}: an ${type} is due, and there is the ${typeof value} ${value}`);
}

/** The two ints of a word of 64 bits, both signed; and the word. */
const lowOf = (wide) => Number(BigInt.asIntN(32, wide));
const highOf = (wide) => Number(wide >> 32n);
const wideOf = (low, high) => (BigInt(high) << 32n) | BigInt(low >>> 0);

/** Values of the host as ints of asm.js. */
function split(params, values, field) {
  const words = [];
  for (let k = 0; k < params.length; k++) {
    const word = wordOf(params[k], values[k], field);
    if (params[k] === "i64") words.push(lowOf(word), highOf(word));
    else words.push(word);
  }
  return words;
}

/** Ints of asm.js as values of the host. */
function joined(params, words) {
  let at = 0;
  return params.map((type) => (type === "i64" ? wideOf(words[at++], words[at++]) : words[at++]));
}

// ---- imports

/** Whether a global can't be set: to set it to its own value changes nothing. */
function isConstant(global) {
  try {
    global.value = global.value;
    return false;
  } catch {
    return true;
  }
}

/** Whether this is a memory of so many pages, in a heap as long as asm.js needs. One that was detached is empty. */
function isMemory(value, pages) {
  if (tagOf(value) !== "WebAssembly.Memory" || tagOf(value.buffer) !== "ArrayBuffer") return false;
  const { buffer, byteLength = buffer.byteLength } = value;
  return byteLength === pages * PAGE && buffer.byteLength === heapLength(pages);
}

/** What stands in the imports object for an import. @throws {TypeError} where there is no object of its module @throws {LinkError} where it is of another kind */
function taken(item, imports) {
  const fields = Object(imports)[item.module];
  if (Object(fields) !== fields) throw new TypeError(`${fieldOf(item)}: imports has no object of this module`);
  const value = fields[item.name];
  const fits = {
    function: () => typeof value === "function",
    global: () => typeof value === "number" || (typeof value?.value === "number" && isConstant(value)),
    memory: () => isMemory(value, item.pages),
  };
  const due = { function: "a function", global: "a number", memory: `a memory of ${item.pages} pages in a heap of ${heapLength(item.pages)} bytes` };
  if (!fits[item.kind]()) throw new LinkError(`${fieldOf(item)}: ${due[item.kind]} is due`);
  return item.kind === "global" ? value.valueOf() | 0 : value;
}

/** @throws {TypeError} where the heap isn't any more what it was when the instance was made */
function checkHeap({ heap, length }) {
  if (heap?.byteLength !== length) throw new TypeError("memory: buffer: it was detached");
}

/** The function that the text calls for an import. While it runs, `state.importing` says so. */
function importedFunction(item, callee, state) {
  return (...words) => {
    let word;
    state.importing = item;
    try {
      const given = callee(...joined(item.params, words));
      if (item.result) word = wordOf(item.result, given, `${fieldOf(item)}: result`);
    } finally {
      state.importing = null;
    }
    checkHeap(state);
    if (item.result !== "i64") return word;
    state.high = highOf(word);
    return lowOf(word);
  };
}

/** What the text calls at a trap. @throws {RuntimeError} always */
function trap(number) {
  const [kind, message] = TRAPS[number - 1];
  throw Object.assign(new RuntimeError(message), { kind, number });
}

/** The foreign object. A name of several functions, as of imports that differ in type, gives them one after the other, in the order in which the text reads them. */
function foreignOf(signatures, values, state) {
  const members = new Map([["$trap", [trap]], ["$high", [() => state.high]]]);
  const made = new Map();
  signatures.imports.forEach((item, k) => {
    if (item.kind === "memory") return;
    const name = importName(item), key = JSON.stringify([name, item.params, item.result]);
    if (!made.has(key)) made.set(key, item.kind === "function" ? importedFunction(item, values[k], state) : values[k]);
    members.set(name, [...(members.get(name) ?? []), made.get(key)]);
  });
  const foreign = {};
  for (const [name, list] of members) {
    const member = list.every((x) => x === list[0]) ? { value: list[0] } : { get: () => list.shift() };
    Object.defineProperty(foreign, name, { ...member, enumerable: true });
  }
  return foreign;
}

// ---- exports

/** An export of the linked text. @throws {LinkError} where it isn't there, or takes another number of words */
function linkedFunction(linked, key, count, field) {
  if (typeof linked?.[key] !== "function" || linked[key].length !== count) throw new LinkError(`${field}: not as in the text that wasm2js writes of this module`);
  return linked[key];
}

/** The function that the host calls for an export, with the name and the length that WebAssembly gives it. */
function exportedFunction(item, linked, state) {
  const field = fieldOf(item);
  const callee = linkedFunction(linked, exportName(item), namesOf(item.params).length, field);
  const call = (...values) => {
    const words = split(item.params, values, field);
    if (state.importing) throw new Error(`${field}: called while the ${fieldOf(state.importing)} runs, which what wasm2js writes doesn't allow`);
    checkHeap(state);
    const low = callee(...words);
    return item.result === "i64" ? wideOf(low, linked.$hi()) : low;
  };
  return Object.defineProperties(call, { name: { value: String(item.index) }, length: { value: item.params.length } });
}

/** A frozen object with the value of a constant, as `WebAssembly.Global` has one. */
function constantOf(item, values) {
  const value = item.type === "i64" ? BigInt(item.value) : (item.value ?? values[item.import]);
  return Object.freeze({ value, valueOf: () => value });
}

/** The exports object. Tables, and globals that change, can't be seen through asm.js: to read one is an error. */
function exportsOf(signatures, values, linked, state) {
  const functions = []; // by their numbers: one that has two names is the same
  const exports = Object.create(null);
  for (const item of signatures.exports) {
    let value = null;
    if (item.kind === "function") value = functions[item.index] ??= exportedFunction(item, linked, state);
    if (item.kind === "memory") value = state.memory;
    if (item.kind === "global" && !item.mutable) value = constantOf(item, values);
    const get = () => {
      throw new TypeError(`${fieldOf(item)}: a ${item.kind} can't be seen through asm.js`);
    };
    Object.defineProperty(exports, item.name, value ? { value, enumerable: true } : { get });
  }
  return Object.freeze(exports);
}

// ---- texts

/** The names that asm.js has for parameters. */
const namesOf = (params) => params.flatMap((type, k) => (type === "i64" ? [`x${k}`, `X${k}`] : [`x${k}`]));

/** The lines, or beginnings of lines, by which a text says what its functions take, what it imports, and whether it has a memory. */
const PIECES = /^(var [ig]\d+=foreign\..*|function f\d+\(.*?\)|var \$w=.*)/gm;

/** How many bytes the memory of a text has, as its functions that copy and fill say it, where it has them. */
const LENGTHS = /^function \$(?:copy|fill)\(.*?if\(x2>>>0>(\d+)\)/gm;

/** Those of them that stand in a text of the module with these signatures, each with the field that says so. */
function piecesOf({ imports, exports, pages }) {
  const imported = ofKind("function", imports);
  const head = (item, number) => `function f${number}(${namesOf(item.params)})`;
  return [
    ...ofKind("function", exports).map((item) => [fieldOf(item), head(item, item.index)]),
    ...imported.map((item, k) => [fieldOf(item), `var i${k}=foreign.${importName(item)};`, head(item, k)]),
    ...ofKind("global", imports).map((item, k) => [fieldOf(item), `var g${k}=foreign.${importName(item)}|0;`]),
    ...(pages === null ? [] : [["memory", "var $w=new stdlib.Int32Array(heap);"]]),
  ];
}

/**
 * Checks that a text was made of the module that has these signatures, as far as imports, exports, memory and start function say it. How long its
 * memory is only a text says that copies or fills.
 * @throws {LinkError} where it wasn't, with the field
 */
function checkText(text, signatures) {
  const lines = String(text).trimEnd();
  const returned = ["$init:$init", "$hi:$hi", ...ofKind("function", signatures.exports).map((item) => `${exportName(item)}:f${item.index}`)];
  const found = new Set(lines.match(PIECES));
  const count = (start) => Array.from(found).filter((piece) => piece.startsWith(start)).length;
  const started = /^function \$init\(\)\{(?:.*;)?f(\d+)\(\);\}$/m.exec(lines)?.[1] ?? "null";
  let [wrong] = piecesOf(signatures).find(([, ...pieces]) => !pieces.every((piece) => found.has(piece))) ?? [];
  if (!lines.startsWith('function wasm(stdlib,foreign,heap){"use asm";')) wrong = "text";
  if (!lines.endsWith(`\nreturn{${returned}};}`)) wrong ??= "exports";
  if (count("var i") !== ofKind("function", signatures.imports).length) wrong ??= "imports";
  if (count("var $w") !== Number(signatures.pages !== null)) wrong ??= "memory";
  if (Array.from(lines.matchAll(LENGTHS)).some(([, length]) => Number(length) !== signatures.pages * PAGE)) wrong ??= "memory";
  if (started !== String(signatures.start)) wrong ??= "start";
  if (wrong) throw new LinkError(`${wrong}: not as in the text that wasm2js writes of this module`);
}

/** The module function of a text, which is checked. A page whose policy forbids this gives the function itself, as packed modules do. */
function moduleOf(text, signatures) {
  if (!Array.isArray(signatures?.imports)) throw new TypeError("signatures: what `signaturesOf` gives is due");
  if (typeof text === "function") return text;
  checkText(text, signatures);
  return new Function(`${text}\nreturn wasm;`)();
}

// ---- instances

/**
 * Loads a text at once, as `new WebAssembly.Instance` does a module.
 * @param {string | Function} text what `bridge wasm2js` wrote; or its function `wasm`, where a page may not make one of a text
 * @param {Signatures} signatures of the module that it was made of (`signaturesOf` of signatures.mjs)
 * @param {object} [imports] by module and field: functions, numbers, and a `Memory`, or a `WebAssembly.Memory` whose length is one that asm.js allows.
 *   What a function throws passes through. A word of 64 bits is a BigInt, both ways
 * @returns {{ exports: object }} `exports` is frozen and has the module's names: functions, a memory, and constants with their `value`
 * @throws {TypeError | LinkError} where an import is missing or of another kind, or the text isn't of this module: before anything runs
 * @throws {RuntimeError} where the start function traps; so do exported functions. The heap is then as it was at the trap, and they may be called again
 */
function instantiateSync(text, signatures, imports) {
  const wasm = moduleOf(text, signatures);
  const values = signatures.imports.map((item) => taken(item, imports));
  const given = values[signatures.imports.findIndex((item) => item.kind === "memory")];
  const memory = given ?? (signatures.pages === null ? undefined : new Memory({ initial: signatures.pages }));
  const state = { memory, heap: memory?.buffer, length: memory?.buffer.byteLength, high: 0, importing: null };
  const linked = wasm(globalThis, foreignOf(signatures, values, state), state.heap);
  linkedFunction(linked, "$hi", 0, "text");
  const init = linkedFunction(linked, "$init", 0, "text");
  const exports = exportsOf(signatures, values, linked, state);
  init();
  return Object.freeze({ exports });
}

/**
 * Loads a text as `WebAssembly.instantiate` does the bytes of a module, with what `instantiateSync` takes.
 * @returns {Promise<{ module: Function, instance: { exports: object } }>} `module` may be given in place of the text; what that throws is what this is rejected with
 */
async function instantiate(text, signatures, imports) {
  const module = moduleOf(text, signatures);
  await null; // nothing runs before the promise is there
  return { module, instance: instantiateSync(module, signatures, imports) };
}
return { instantiate, instantiateSync, Memory, RuntimeError, LinkError };
})();
const signatures = {"imports":[{"module":"env","name":"memory","kind":"memory","pages":16}],"exports":[{"name":"draw","kind":"function","index":0,"params":["i32","i32","i32","i32"],"result":"i32"}],"pages":16,"start":null};
function wasm(stdlib,foreign,heap){"use asm";
var $u8=new stdlib.Uint8Array(heap);
var $i8=new stdlib.Int8Array(heap);
var $w=new stdlib.Int32Array(heap);
var $imul=stdlib.Math.imul;
var $clz32=stdlib.Math.clz32;
var $trap=foreign.$trap;
var $high=foreign.$high;
var $q=0;
var $h=0;
var g0=5168;
function f0(x0,x1,x2,x3){x0=x0|0;x1=x1|0;x2=x2|0;x3=x3|0;var x4=0,x5=0,x6=0,x7=0,x8=0,x9=0,x10=0,x11=0,x12=0,x13=0,x14=0,x15=0,x16=0,x17=0,x18=0,x19=0,s0=0,s1=0,s2=0,s3=0,s4=0,s5=0;x4=65536;x5=0;x6=0;L0:while(1){s1=$imul(x6,x2);x7=x1-s1|0;x8=0;L1:while(1){L2:{L3:{if(x3|0)break L3;x9=0;break L2;}s0=$imul(x8,x2);x10=s0+x0|0;x11=0;x9=0;x12=0;L3:while(1){s0=x11+-536870913|0;if(s0>>>0<-1073741825>>>0)break L2;if((x12|0)>536870912)break L2;if((x12|0)<-536870912)break L2;x13=x12>>31;s0=x12+x13|0;x14=s0^x13;x13=x14&65535;x14=x14>>>16;x15=$imul(x13,x14);s0=x15>>>15;s0=s0&65534;s1=$imul(x14,x14);s0=s0+s1|0;s1=x15<<1;s1=s1&131070;s2=$imul(x13,x13);s2=s2>>>16;x15=s1+s2|0;s1=x15>>>16;s0=s0+s1|0;s0=s0<<4;s1=x15>>>12;s1=s1&15;x16=s0|s1;x15=x11>>31;s1=x11+x15|0;x17=s1^x15;x15=x17&65535;x17=x17>>>16;x18=$imul(x15,x17);s1=x18>>>15;s1=s1&65534;s2=$imul(x17,x17);s1=s1+s2|0;s2=x18<<1;s2=s2&131070;s3=$imul(x15,x15);s3=s3>>>16;x18=s2+s3|0;s2=x18>>>16;s1=s1+s2|0;s1=s1<<4;s2=x18>>>12;s2=s2&15;x18=s1|s2;s0=x16+x18|0;if(s0>>>0>1073741824)break L2;x19=$imul(x13,x17);s2=x19>>>16;s3=$imul(x14,x17);s2=s2+s3|0;x14=$imul(x14,x15);s3=x14>>>16;s2=s2+s3|0;s3=$imul(x13,x15);s3=s3>>>16;s4=x19&65535;s3=s3+s4|0;s4=x14&65535;x13=s3+s4|0;s3=x13>>>16;s2=s2+s3|0;s2=s2<<4;s3=x13>>>12;s3=s3&15;x13=s2|s3;s1=0-x13|0;s3=x12^x11;s3=(s3|0)<0;s1=s3|0?s1:x13;s1=s1<<1;x12=x7+s1|0;s0=x10+x18|0;x11=s0-x16|0;x9=x9+1|0;if((x3|0)!=(x9|0))continue L3;break;}x9=x3;}x12=(x9|0)==(x3|0);L2:{L3:{if((x9|0)!=(x3|0))break L3;x11=0;if(x4>>>0>1048574)$trap(2);$u8[x4>>0]=0;$u8[x4+1>>0]=0>>>8;break L2;}s1=$imul(x9,6);x14=s1+36|0;x13=x14>>>4;s1=x13&15;x11=$imul(s1,3);s1=x11+1025|0;s1=$u8[s1>>0]|0;x15=s1;s2=x13+1|0;s2=s2&15;x13=$imul(s2,3);s2=x13+1025|0;s2=$u8[s2>>0]|0;s2=s2-x15|0;x14=x14&14;s2=$imul(s2,x14);s2=s2>>>4;s1=s1+s2|0;if(x4>>>0>1048574)$trap(2);$u8[x4+1>>0]=s1;s1=x11+1024|0;s1=$u8[s1>>0]|0;x15=s1;s2=x13+1024|0;s2=$u8[s2>>0]|0;s2=s2-x15|0;s2=$imul(s2,x14);s2=s2>>>4;s1=s1+s2|0;$u8[x4>>0]=s1;s0=x11+1026|0;s0=$u8[s0>>0]|0;x11=s0;s1=x13+1026|0;s1=$u8[s1>>0]|0;s1=s1-x11|0;s1=$imul(s1,x14);s1=s1>>>4;x11=s0+s1|0;}x5=x5+x12|0;if(x4>>>0>1048572)$trap(2);$u8[x4+3>>0]=255;$u8[x4+2>>0]=x11;x4=x4+4|0;x8=x8+1|0;if((x8|0)!=512)continue L1;break;}x6=x6+1|0;if((x6|0)!=384)continue L0;break;}return x5|0;}
function $init(){$w[256]=420421186;$w[257]=17373703;$w[258]=1224999983;$w[259]=207881984;$w[260]=1377339948;$w[261]=-780322383;$w[262]=-739920506;$w[263]=-370018068;$w[264]=1607071935;$w[265]=-872371457;$w[266]=1469644928;$w[267]=53766656;}
function $hi(){return $h|0;}
return{$init:$init,$hi:$hi,draw:f0};}

const instantiate = (imports) => host.instantiate(wasm, signatures, imports);
const instantiateSync = (imports) => host.instantiateSync(wasm, signatures, imports);
const { Memory, RuntimeError, LinkError } = host;
return { instantiate, instantiateSync, Memory, RuntimeError, LinkError };
})();
