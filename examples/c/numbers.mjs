// node numbers.mjs PRINT FILL
// Calls print.c and fill.c, as host/pack.mjs packed what Bridge made of them.
import path from "node:path";
import { pathToFileURL } from "node:url";

const [print, fill] = await Promise.all(process.argv.slice(2).map((file) => import(pathToFileURL(path.resolve(file)))));

let line = "";
const printing = await print.instantiate({
  env: {
    write(from, length) {
      line += new TextDecoder().decode(printing.instance.exports.memory.bytes.subarray(from, from + length));
    },
  },
});
printing.instance.exports.show(12345678901234567n, 4567890123456789n);
console.log(line.trimEnd());

const { exports } = (await fill.instantiate()).instance;
const first = exports.filled(0xab, 1000), second = exports.filled(0xcd, 1000);
const sum = (from) => exports.memory.bytes.subarray(from, from + 8000).reduce((total, byte) => total + byte, 0);
console.log(`8000 bytes at each place: ${second - first} bytes between them, ${sum(first) / 8000} and ${sum(second) / 8000} in each byte; no room for more: ${exports.filled(1, 100000)}`);
