// node host.mjs TEXT MODULE
// A host of the asm.js that `bridge wasm2js bytes.wasm` writes. But for the line that loads it, it is as it was for the module itself.
import { readFileSync } from "node:fs";
import { instantiate, Memory } from "../../host/asm.mjs";
import { signaturesOf } from "../../host/signatures.mjs";

// 1. The memory is one of the host's. The module has its first two pages, and `bytes` is a view of these.
const memory = new Memory({ initial: 2 });
const { bytes: heap } = memory;

// 2. The imports, by module and field. Words of 64 bits are BigInt, both ways.
const imports = {
  env: {
    memory,
    seed: () => 0x0123456789abcdefn,
    refuse: (place, character) => console.log(`refused at ${place}: ${JSON.stringify(String.fromCharCode(character))}`),
  },
};

// 3. In place of `WebAssembly.instantiate(module, imports)`.
const [text, module] = [readFileSync(process.argv[2], "utf8"), readFileSync(process.argv[3])];
const { instance } = await instantiate(text, signaturesOf(module), imports);
const bytes = instance.exports;

// 4. Words of 32 bits come out signed.
const hex = (word) => (typeof word === "bigint" ? BigInt.asUintN(64, word) : word >>> 0).toString(16);

function put(string, place) {
  heap.set(new TextEncoder().encode(string), place);
  return string.length;
}

const textAt = (place, length) => new TextDecoder().decode(heap.subarray(place, place + length));

const IN = 65536, PACKED = 69632, OUT = 73728, WORDS = 77824;
const length = put("one two three, one two three, one two three; and so on, and so on.", IN);
console.log(`crc32 ${hex(bytes.crc32(IN, length))}`);
console.log(`base64 ${textAt(OUT, bytes.encode(IN, length, OUT))}`);
const packed = bytes.pack(IN, length, PACKED);
const unpacked = bytes.unpack(PACKED, packed, OUT);
console.log(`packed ${length} bytes to ${packed}, and back: ${textAt(OUT, unpacked)}`);

console.log(`hash ${hex(bytes.hash(0x123456789abcdef0n, IN, length))}`);
console.log(`keyed hash ${hex(bytes.keyed_hash(IN, length))}`);

const words = new Int32Array(memory.buffer, WORDS, 5);
words.set([3, -1, 200, -70000, 0]);
bytes.sort(WORDS, words.length, 1);
console.log(`sorted ${words.join(" ")}`);

console.log(`decoded ${textAt(OUT, bytes.decode(IN, put("aGk!gdGhlcmU=", IN), OUT))}`);

// 5. A trap throws what WebAssembly throws, with its kind and number. The memory is as it was then, and the module may be called again.
try {
  bytes.crc32(131070, 4);
} catch (error) {
  console.log(`trap ${error.number}, ${error.kind}: ${error.message}`);
}
