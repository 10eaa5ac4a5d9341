// Sessions on node's engine: jobs come on standard input, one line of JSON each, and answers leave on standard output.
// A job has a script's `heap`, `replies` and `calls`, the module's `imports`, and `text` for asm.js or `bytes` in base64 for WebAssembly; a pair has
// both in `modules`.
// `units` says how many units a run may take, where its text takes each by a call of `$$take_unit$$`.
// An answer has `seen`, the text that `bridge run-asm` or `bridge run-wasm` prints, or `why` there is none.
import readline from "node:readline";
import v8 from "node:v8";
import vm from "node:vm";

// asm.js is run as plain JavaScript, whose meaning is what the translations keep.
v8.setFlagsFromString("--no-validate-asm");
const LONGEST = 10000; // milliseconds of a session
const RUNNING = "still running";

class End extends Error {
  constructor(line) {
    super(line);
    this.line = line;
  }
}

const low = (word) => String(BigInt.asIntN(32, word));

// The words of a session's line: one for each value, or for asm.js two for each of 64 bits.
function words(types, values, split) {
  return types.flatMap((type, k) => {
    if (type !== "i64") return [String(values[k] | 0)];
    return split ? [low(values[k]), low(values[k] >> 32n)] : [String(values[k])];
  });
}

class Session {
  constructor({ replies }) {
    this.lines = [];
    this.replies = replies;
    this.given = 0;
    this.last = 0n;
    this.heap = null;
  }

  // A call of an import: `$trap` ends the session, `$high` is no event, any other takes the next reply.
  imported(name, args) {
    const shown = [name, ...args].join(" ");
    if (name === "$trap") throw new End(`end stopped ${shown}`);
    if (name === "$high") return this.last >> 32n;
    if (this.given === this.replies.length) throw new End(`end no-reply ${shown}`);
    const reply = this.replies[this.given++];
    if (reply === null) throw new End(`end stopped ${shown}`);
    this.lines.push(`import ${shown}`);
    for (const [place, hex] of reply[1]) this.heap.set(Buffer.from(hex, "hex"), place);
    return (this.last = BigInt(reply[0]));
  }

  heapLines() {
    const lines = [];
    const wide = this.heap ? new BigUint64Array(this.heap.buffer, 0, this.heap.length / 8) : [];
    for (let k = 0; k < wide.length; k += 2)
      if (wide[k] || wide[k + 1]) lines.push(`heap ${k * 8} ${Buffer.from(this.heap.buffer, k * 8, 16).toString("hex")}`);
    return lines;
  }

  // What is seen, with the end that the calls come to.
  seen(calls, trap) {
    globalThis.calls = calls;
    try {
      new vm.Script("globalThis.calls()").runInThisContext({ timeout: LONGEST });
      this.lines.push("end done");
    } catch (error) {
      this.lines.push(error instanceof End ? error.line : trap(error));
    }
    // (where units are used up no end is seen, and so no heap)
    const heap = this.lines.at(-1) === RUNNING ? [] : this.heapLines();
    return [...this.lines, ...heap, ""].join("\n");
  }

  result(type, value, split) {
    if (type === undefined) this.lines.push("returned");
    else for (const word of words([type], [value], split)) this.lines.push(`result ${word}`);
  }
}

function runAsm(job) {
  const session = new Session(job);
  const heap = new ArrayBuffer(job.length);
  if (job.hasHeap) session.heap = new Uint8Array(heap);
  const foreign = Object.create(null);
  for (const { field, value, name } of job.imports)
    foreign[field] = value === undefined ? (...args) => Number(BigInt.asIntN(32, session.imported(name, args.map((x) => String(x | 0))))) : Number(value);
  const module = vm.runInThisContext(`var module = ${job.text}\n; module`);
  const made = module(globalThis, foreign, heap);
  let left = job.units ?? Infinity;
  globalThis.$$take_unit$$ = () => {
    if (left === 0) throw new End(RUNNING);
    left -= 1;
  };
  const exported = (name) => (typeof made === "function" ? made : made[name]);
  for (const [place, hex] of job.heap) session.heap.set(Buffer.from(hex, "hex"), place);
  const calls = () => {
    for (const { name, args } of job.calls) {
      const value = exported(name)(...args.map(Number));
      session.result(value === undefined ? undefined : "i32", value, false);
    }
  };
  const rethrow = (error) => {
    throw error;
  };
  return session.seen(calls, rethrow);
}

const inward = (type, text) => (type === "i64" ? BigInt.asIntN(64, BigInt(text)) : Number(BigInt.asIntN(32, BigInt(text))));

// The imports object: functions that answer for the session, globals with the script's values, the memory.
function imports(job, session) {
  const all = {};
  if (job.memory) {
    const { module, field, pages, most } = job.memory;
    const memory = new WebAssembly.Memory({ initial: pages, ...(most === null ? {} : { maximum: most }) });
    session.heap = new Uint8Array(memory.buffer);
    (all[module] ??= {})[field] = memory;
  }
  for (const { module, field, name, value, params, results } of job.imports) {
    (all[module] ??= {})[field] =
      value !== undefined ? inward("i32", value) : (...args) => {
        const word = session.imported(name, words(params ?? args.map(() => "i32"), args, job.split));
        return results && results[0] === "i64" ? BigInt.asIntN(64, word) : Number(BigInt.asIntN(32, word));
      };
  }
  return all;
}

const TRAPS = [
  [/unreachable/, 1],
  [/memory access out of bounds/, 2],
  [/divide by zero|remainder by zero/, 3],
  [/divide result unrepresentable/, 4],
  [/table index is out of bounds/, 5],
];

function trapKind(error, exports) {
  if (!(error instanceof WebAssembly.RuntimeError)) throw error;
  const known = TRAPS.find(([pattern]) => pattern.test(error.message));
  if (known) return known[1];
  // The engine says the same of an empty entry and of one of another type.
  if (!/signature mismatch/.test(error.message)) throw error;
  return exports.table.get(exports.entry.value >>> 0) === null ? 5 : 6;
}

function runWasm(job) {
  const session = new Session(job);
  const given = imports(job, session);
  for (const [place, hex] of job.heap) session.heap.set(Buffer.from(hex, "hex"), place);
  const { exports } = new WebAssembly.Instance(new WebAssembly.Module(Buffer.from(job.bytes, "base64")), given);
  const calls = () => {
    exports.start?.();
    for (const { export: exported, args, params, results } of job.calls)
      session.result(results[0], exports[exported](...args.map((text, k) => inward(params[k], text))), job.split);
  };
  return session.seen(calls, (error) => `${job.split ? "end stopped $trap" : "end trap"} ${trapKind(error, exports)}`);
}

// Two modules over one memory: an import that has `bound` is that export of the other module, which may not be there yet.
function runPair(job) {
  const session = new Session(job);
  const all = [];
  const memory = job.memory && new WebAssembly.Memory({ initial: job.memory.pages, ...(job.memory.most === null ? {} : { maximum: job.memory.most }) });
  if (memory) session.heap = new Uint8Array(memory.buffer);
  for (const [place, hex] of job.heap) session.heap.set(Buffer.from(hex, "hex"), place);
  const late = (side, name) => (...words) => all[side][name](...words);
  for (const [side, { bytes, imports: asked }] of job.modules.entries()) {
    const given = imports({ ...job, memory: null, imports: asked.filter(({ bound }) => bound === undefined) }, session);
    given.import ??= {};
    for (const { field, bound } of asked) if (bound !== undefined) given.import[field] = late(1 - side, bound);
    if (memory) given.import.memory = memory;
    all[side] = new WebAssembly.Instance(new WebAssembly.Module(Buffer.from(bytes, "base64")), given).exports;
  }
  const calls = () => {
    for (const { start } of all) start?.();
    for (const { side, export: exported, args, params, results } of job.calls)
      session.result(results[0], all[side][exported](...args.map((text, k) => inward(params[k], text))), false);
  };
  // An empty entry and one of another type are told apart by the module alone.
  const kind = (error) => (error instanceof WebAssembly.RuntimeError && /signature mismatch/.test(error.message) ? "5 or 6" : trapKind(error, {}));
  return session.seen(calls, (error) => `end trap ${kind(error)}`);
}

for await (const line of readline.createInterface({ input: process.stdin })) {
  let answer;
  try {
    const job = JSON.parse(line);
    answer = { seen: job.modules ? runPair(job) : job.text === undefined ? runWasm(job) : runAsm(job) };
  } catch (error) {
    answer = { why: String(error.stack ?? error) };
  }
  process.stdout.write(`${JSON.stringify(answer)}\n`);
}
