// node session.mjs FILE SCRIPT
// The session of a script on bytes.wasm by the engine, in the lines of `bridge run-wasm`.
import { readFileSync } from "node:fs";

const lines = readFileSync(process.argv[3], "utf8").split("\n").map((line) => line.split(" "));
const parts = (kind) => lines.filter((line) => line[0] === kind).map((line) => line.slice(1));
const memory = new WebAssembly.Memory({ initial: 2, maximum: 2 });
const bytes = Buffer.from(memory.buffer);
const replies = parts("reply").map(([word]) => BigInt(word));

function answer(...words) {
  console.log(["import", ...words].join(" "));
  return replies.shift();
}

for (const [place, hex] of parts("heap")) bytes.write(hex, Number(place), "hex");
const env = { memory, seed: () => answer("seed"), refuse: (place, character) => void answer("refuse", place, character) };
const { exports } = new WebAssembly.Instance(new WebAssembly.Module(readFileSync(process.argv[2])), { env });
let end = "end done";
try {
  for (const [name, ...words] of parts("call")) {
    const result = exports[name](...words.map((word, k) => (name === "hash" && k === 0 ? BigInt(word) : Number(word))));
    console.log(result === undefined ? "returned" : `result ${result}`);
  }
} catch (error) {
  if (!(error instanceof WebAssembly.RuntimeError) || !/out of bounds/.test(error.message)) throw error;
  end = "end trap 2";
}
console.log(end);
for (let at = 0; at < bytes.length; at += 16) {
  const row = bytes.subarray(at, at + 16);
  if (row.some((byte) => byte !== 0)) console.log(`heap ${at} ${row.toString("hex")}`);
}
