// node tools/validity.mjs PROGRAM [SEED [COUNT]]
// Random modules of tools/compare with a bit turned, or a byte changed, dropped or added: what `PROGRAM check-wasm` takes, the engine takes.
// Every tenth is left as it is, and both take it. The engine also takes what isn't in the integer part, so it may take more. Where few of
// the altered modules are taken by both, or few refused by both, nothing is shown, and this fails.
import { execFileSync, spawnSync } from "node:child_process";
import { mkdtempSync, rmSync, writeFileSync } from "node:fs";
import { tmpdir } from "node:os";
import { dirname, join } from "node:path";
import { fileURLToPath } from "node:url";

const [program, seedText = "1", countText = "200"] = process.argv.slice(2);
const count = Number(countText);
const LEAST_TAKEN = 0.05; // of the altered modules
const LEAST_REFUSED = 0.25;
const WRITE = `
import base64, sys
from wasm_modules import WasmModule
for k in range(int(sys.argv[2])):
    print(base64.b64encode(WasmModule(f"validity {sys.argv[1]} {k}").module.bytes()).decode())
`;
let state = BigInt(seedText) * 2654435761n + 1n;

function below(n) {
  state = (state * 6364136223846793005n + 1442695040888963407n) % (1n << 64n);
  return Number((state >> 33n) % BigInt(n));
}

function altered(bytes) {
  const at = 8 + below(bytes.length - 8);
  const [front, back] = [bytes.subarray(0, at), bytes.subarray(at + 1)];
  switch (below(5)) {
    case 0:
      return Buffer.concat([front, Buffer.from([below(256)]), back]);
    case 1:
      return Buffer.concat([front, back]);
    case 2:
      return Buffer.concat([front, Buffer.from([below(256), bytes[at]]), back]);
    default:
      return Buffer.concat([front, Buffer.from([bytes[at] ^ (1 << below(8))]), back]);
  }
}

function isTaken(bytes, file) {
  writeFileSync(file, bytes);
  const { status, stdout, stderr } = spawnSync(program, ["check-wasm", file]);
  if (status !== 0 && (status !== 3 || stdout.length > 0 || !/^wasm refused: B\d+ .*\n$/.test(stderr.toString())))
    throw new Error(`status ${status}: ${stderr}`);
  return status === 0;
}

// How many modules of each kind there are: whole ones that both take, altered ones by who takes them, and those that differ.
function tallyOf(modules, file) {
  const tally = { whole: 0, both: 0, neither: 0, engine: 0, differ: 0 };
  modules.forEach((whole, k) => {
    const bytes = k % 10 ? altered(whole) : whole;
    const taken = isTaken(bytes, file), byEngine = WebAssembly.validate(bytes);
    if ((taken && !byEngine) || (bytes === whole && !taken)) {
      console.log(`differs: ${taken ? "taken" : "refused"}: ${bytes.toString("hex")}`);
      tally.differ++;
    } else if (bytes === whole) tally.whole++;
    else tally[taken ? "both" : byEngine ? "engine" : "neither"]++;
  });
  return tally;
}

const compare = join(dirname(fileURLToPath(import.meta.url)), "compare");
const written = execFileSync("python3", ["-B", "-c", WRITE, seedText, countText], { cwd: compare, maxBuffer: 1 << 30 });
const modules = written.toString().trim().split("\n").map((line) => Buffer.from(line, "base64"));
const folder = mkdtempSync(join(tmpdir(), "bridge-"));
let tally;
try {
  tally = tallyOf(modules, join(folder, "m.wasm"));
} finally {
  rmSync(folder, { recursive: true });
}

const { whole, both, neither, engine, differ } = tally;
const least = [LEAST_TAKEN, LEAST_REFUSED].map((share) => Math.max(1, Math.floor(share * count * 0.9)));
console.log(
  `validity: seed ${seedText}: ${whole} modules as they are taken by both; of altered ones ${both} taken by both, ${neither} refused by both, ` +
    `${engine} taken by the engine alone; ${differ} differ`,
);
const few = both < least[0] || neither < least[1] || whole === 0;
if (few) console.log(`validity: too few modules: at least ${least[0]} altered ones are to be taken by both, and ${least[1]} refused by both`);
process.exit(differ || few ? 1 : 0);
