// The session of session.txt in node: the library and the program as two instances over one memory, or the linked module that is named.
import { readFileSync } from "node:fs";

const here = new URL(".", import.meta.url);
const compiled = (file) => new WebAssembly.Module(readFileSync(file));
const memory = new WebAssembly.Memory({ initial: 2, maximum: 2 });
const log = (word) => console.log(`import log ${word}`);

// Each import that the other module exports is that export, which may not be there yet.
function pair() {
  const exports = {};
  const late = (name) => (...words) => exports[name](...words);
  const env = { memory, log, change: late("change") };
  for (const name of ["library", "program"]) {
    Object.assign(exports, new WebAssembly.Instance(compiled(new URL(`${name}.wasm`, here)), { env: { ...env, ...exports } }).exports);
  }
  return exports;
}

const [linked] = process.argv.slice(2);
const exports = linked ? new WebAssembly.Instance(compiled(linked), { env: { memory, log } }).exports : pair();
for (const line of readFileSync(new URL("session.txt", here), "utf8").split("\n")) {
  const [word, name, ...args] = line.split(" ");
  if (word !== "call") continue;
  const value = exports[name](...args.map(Number));
  console.log(value === undefined ? "returned" : `result ${value}`);
}
console.log("end done");
