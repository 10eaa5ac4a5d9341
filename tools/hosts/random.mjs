// Sessions of the random modules of random_modules.py: each import answers by the script's next reply, which may write into the memory or throw.
import { spawnSync } from "node:child_process";
import { fileURLToPath } from "node:url";
import vm from "node:vm";
import { bytesOf, looks, outcome, Thrown } from "./sessions.mjs";

const MEMORY_EXPORT = "the memory";

/** The modules, or null where python3 isn't installed. */
export function randomModules(count, seed) {
  const program = fileURLToPath(new URL("random_modules.py", import.meta.url));
  const done = spawnSync("python3", [program, String(count), String(seed)], { maxBuffer: 2 ** 30, encoding: "utf8" });
  if (done.error?.code === "ENOENT") return null;
  if (done.status !== 0) throw new Error(done.stderr);
  return done.stdout.trimEnd().split("\n").map((line) => JSON.parse(line));
}

/** Does an act, for at most so many seconds. Answers whether it came to an end. */
function ended(act, seconds) {
  globalThis.act = act;
  try {
    new vm.Script("globalThis.act()").runInThisContext({ timeout: seconds * 1000 });
    return true;
  } catch (error) {
    if (error.code === "ERR_SCRIPT_EXECUTION_TIMEOUT") return false;
    throw error;
  }
}

/** A function of the host that answers by the script's replies. `seen.memory` is where they write, once it is known. */
function answering(name, replies, seen, toValue) {
  return (...values) => {
    seen.log.push([name, ...values]);
    const reply = replies[seen.given++];
    if (!reply) throw new Thrown(reply === null ? "reply" : "no reply");
    const [word, writes] = reply;
    if (seen.memory) for (const [place, hex] of writes) new Uint8Array(seen.memory.buffer).set(Buffer.from(hex, "hex"), place);
    return toValue(BigInt(word));
  };
}

const toInt = (word) => Number(BigInt.asIntN(32, word));
const newSight = () => ({ log: [], outcomes: [], given: 0, memory: undefined, bytes: null });

function importsOf(job, seen, makeMemory) {
  const imports = {};
  for (const { module, name, kind, results, value, pages, most } of job.imports) {
    const fields = (imports[module] ??= Object.create(null));
    if (kind === "function") fields[name] = answering(`${module} ${name}`, job.replies, seen, results[0] === "i64" ? (word) => word : toInt);
    else if (kind === "global") fields[name] = toInt(BigInt(value));
    else seen.memory = fields[name] = makeMemory({ initial: pages, ...(most === null ? {} : { maximum: most }) });
  }
  for (const [place, hex] of job.heap) new Uint8Array(seen.memory.buffer).set(Buffer.from(hex, "hex"), place);
  return imports;
}

/**
 * What is seen of a script on a module of WebAssembly, or on its translation. Null where it doesn't end.
 * @param {(imports: object) => { exports: object }} load
 */
export function wasmSight(job, load, { makeMemory, hidden, seconds }) {
  const seen = newSight();
  const imports = importsOf(job, seen, makeMemory);
  const act = () => {
    seen.start = outcome(() => load(imports));
    if (seen.start.error) return;
    const { exports } = seen.start.result;
    seen.start = { result: looks(exports, hidden) };
    seen.memory ??= exports[MEMORY_EXPORT];
    for (const { name, args, params } of job.calls)
      seen.outcomes.push(outcome(() => exports[name](...args.map((arg, k) => (params[k] === "i64" ? BigInt(arg) : Number(arg))))));
  };
  if (!ended(act, seconds)) return null;
  return { ...seen, memory: null, bytes: bytesOf(seen.memory) };
}

/**
 * The same of a text of asm.js, or of its translation.
 * @param {(foreign: object, length?: number, fill: (buffer: ArrayBuffer) => void) => { exports, buffer }} link
 */
export function asmSight(job, link, seconds) {
  const seen = newSight();
  const foreign = Object.create(null);
  for (const name of job.functions) foreign[name] = answering(name, job.replies, seen, toInt);
  for (const [name, value] of Object.entries(job.values)) foreign[name] = value;
  const act = () => {
    const { exports, buffer } = link(foreign);
    if (job.hasHeap) seen.memory = { buffer };
    for (const [place, hex] of job.heap) new Uint8Array(buffer).set(Buffer.from(hex, "hex"), place);
    seen.keys = [typeof exports, ...Object.keys(exports)];
    for (const { name, args } of job.calls) seen.outcomes.push(outcome(() => (job.returns === "function" ? exports : exports[name])(...args.map(Number))));
  };
  if (!ended(act, seconds)) return null;
  return { ...seen, memory: null, bytes: job.hasHeap ? Uint8Array.from(new Uint8Array(seen.memory.buffer, 0, job.length)) : null };
}

/** Whether a session met the end of the stack, which is at another depth in each engine. */
export const isDeep = (seen) => [seen.start, ...seen.outcomes].some((one) => one?.error instanceof RangeError);
