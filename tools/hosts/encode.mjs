// Modules of WebAssembly in the binary format (Core Specification 1.0, chapter 5), as far as the tests of hosts have them.
// Lists of bytes may be nested.

export const I32 = 0x7f, I64 = 0x7e;
const EMPTY = 0x40; // the type of a block without a result
const KINDS = ["function", "table", "memory", "global"];

/** LEB128. */
function unsigned(n) {
  const bytes = [];
  for (; n > 127; n = Math.floor(n / 128)) bytes.push((n & 127) | 128);
  return [...bytes, n];
}

/** LEB128 in two's complement. */
function signed(value) {
  const bytes = [];
  let n = BigInt(value);
  for (; n < -64n || n > 63n; n >>= 7n) bytes.push(Number(n & 127n) | 128);
  return [...bytes, Number(n & 127n)];
}

const vector = (items) => [unsigned(items.length), ...items];
const sized = (content) => [unsigned(content.flat(Infinity).length), content];
const name = (text) => vector([...Buffer.from(text)]);
const limits = ({ least, most }) => (most === undefined ? [0, unsigned(least)] : [1, unsigned(least), unsigned(most)]);

// ---- instructions

export const const32 = (n) => [0x41, signed(n | 0)];
export const const64 = (n) => [0x42, signed(BigInt.asIntN(64, BigInt(n)))];
export const get = (local) => [0x20, unsigned(local)];
export const set = (local) => [0x21, unsigned(local)];
export const getGlobal = (global) => [0x23, unsigned(global)];
export const setGlobal = (global) => [0x24, unsigned(global)];
export const call = (number) => [0x10, unsigned(number)];
export const callIndirect = (type) => [0x11, unsigned(type), 0];
export const load = (offset = 0) => [0x28, 0, unsigned(offset)];
export const load64 = (offset = 0) => [0x29, 0, unsigned(offset)];
export const store = (offset = 0) => [0x36, 0, unsigned(offset)];
export const store64 = (offset = 0) => [0x37, 0, unsigned(offset)];
export const fill = () => [0xfc, 0x0b, 0];
export const OPERATORS = { unreachable: 0, drop: 0x1a, add: 0x6a, divS: 0x6d, divU: 0x6e, remS: 0x6f, remU: 0x70, add64: 0x7c, xor64: 0x85, wrap: 0xa7, fill: [0xfc, 11, 0], copy: [0xfc, 10, 0, 0] };
export const when = (body) => [0x04, EMPTY, body, 0x0b];

// ---- modules

function importOf(item) {
  const detail = { function: () => unsigned(item.type), memory: () => limits(item), global: () => [item.type, 0], table: () => [0x70, limits(item)] }[item.kind]();
  return [name(item.module), name(item.name), KINDS.indexOf(item.kind), detail];
}

/**
 * The bytes of a module. `types` are pairs of lists; functions, imports and globals are counted as in the format, imported ones first.
 * @param {object} parts `types`, `imports`, `functions` ({ type, locals, code }), `table`, `memory`, `globals` ({ type, mutable, init }), `exports` ([name, kind, number]),
 *   `start`, `elements` ([at, functions]), `segments` ([at, bytes])
 */
export function encode({ types = [], imports = [], functions = [], table, memory, globals = [], exports = [], start, elements = [], segments = [] }) {
  const sections = [
    [1, types.map(([params, results]) => [0x60, vector(params), vector(results)])],
    [2, imports.map(importOf)],
    [3, functions.map(({ type }) => unsigned(type))],
    [4, table ? [[0x70, limits(table)]] : []],
    [5, memory ? [limits(memory)] : []],
    [6, globals.map(({ type, mutable = false, init }) => [type, Number(mutable), init, 0x0b])],
    [7, exports.map(([key, kind, number]) => [name(key), KINDS.indexOf(kind), unsigned(number)])],
    [8, start],
    [9, elements.map(([at, list]) => [0, const32(at), 0x0b, vector(list.map(unsigned))])],
    [10, functions.map(({ locals = [], code }) => sized([vector(locals.map((type) => [1, type])), code, 0x0b]))],
    [11, segments.map(([at, bytes]) => [0, const32(at), 0x0b, vector([...bytes])])],
  ];
  const coded = sections.filter(([, items]) => (Array.isArray(items) ? items.length : items !== undefined));
  const bytes = coded.map(([number, items]) => [number, sized(Array.isArray(items) ? vector(items) : unsigned(items))]);
  return Uint8Array.from([0, 97, 115, 109, 1, 0, 0, 0, bytes].flat(Infinity));
}
