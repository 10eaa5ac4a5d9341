"use strict";
// mandelbrot_wasm.js gives MODULE_IN_BASE64, and life.js the module function `life`: the two programs as they were.
// mandelbrot_asm.js gives `mandelbrotAsm`, and life_wasm.js `lifeWasm`: what Bridge made of them, packed with the hosts (host/pack.mjs).

const WIDTH = 512, HEIGHT = 384;
const ONE = 2 ** 28; // what stands for 1 in the fixed numbers of the set
const WHOLE = { x: -0.7, y: 0, width: 3.4, depth: 160 };

// ---- the C program: the same imports object and the same calls, and one other line

function setAsWebAssembly() {
  const bytes = Uint8Array.from(atob(MODULE_IN_BASE64), (c) => c.charCodeAt(0));
  const memory = new WebAssembly.Memory({ initial: 16, maximum: 16 });
  const { exports } = new WebAssembly.Instance(new WebAssembly.Module(bytes), { env: { memory } });
  return { draw: exports.draw, buffer: memory.buffer, picture: 65536 };
}

function setAsAsmJs() {
  const memory = new mandelbrotAsm.Memory({ initial: 16, maximum: 16 });
  const { exports } = mandelbrotAsm.instantiateSync({ env: { memory } });
  return { draw: exports.draw, buffer: memory.buffer, picture: 65536 };
}

// ---- the module of asm.js: the same foreign object and the same calls, and one other line

const HEAP = 2 ** 21;

/** Random words, the same ones after each beginning (Marsaglia's xorshift). */
function words(first) {
  let word = first;
  return () => (word ^= word << 13, word ^= word >>> 17, word ^= word << 5);
}

function lifeAsAsmJs(first) {
  const foreign = { random: words(first) };
  const buffer = new ArrayBuffer(HEAP), exports = life(globalThis, foreign, buffer);
  exports.sow();
  return { draw: exports.draw, buffer, picture: 2 ** 20 };
}

function lifeAsWebAssembly(first) {
  const foreign = { random: words(first) };
  const { buffer, exports } = lifeWasm.linkAsm(globalThis, foreign, HEAP);
  exports.sow();
  return { draw: exports.draw, buffer, picture: 2 ** 20 };
}

// ---- both

/** How many bytes of the two memories differ. */
function differing(a, b) {
  let count = Math.abs(a.length - b.length);
  for (let at = 0; at < Math.min(a.length, b.length); at++) if (a[at] !== b[at]) count++;
  return count;
}

function drawn(canvas, { draw, buffer, picture }, values) {
  const start = performance.now();
  const answer = draw(...values);
  const time = performance.now() - start;
  canvas.getContext("2d").putImageData(new ImageData(new Uint8ClampedArray(buffer, picture, WIDTH * HEIGHT * 4), WIDTH, HEIGHT), 0, 0);
  canvas.parentNode.querySelector("span").textContent = `${time.toFixed(0)} ms`;
  return answer;
}

/** Draws by both programs of a pair, and says whether the answers and all bytes are equal. */
function judged(name, { source, made }, values, what) {
  const first = drawn(document.getElementById(`${name}-source`), source, values), second = drawn(document.getElementById(`${name}-made`), made, values);
  const bytes = new Uint8Array(source.buffer), count = differing(bytes, new Uint8Array(made.buffer));
  const number = (n) => n.toLocaleString("en");
  const answers = first === second ? `both calls answered ${number(first)}` : `the calls answered ${number(first)} and ${number(second)}`;
  const equal = count === 0 && first === second;
  const verdict = document.getElementById(`${name}-verdict`);
  verdict.className = `verdict ${equal ? "equal" : "different"}`;
  verdict.textContent = `${equal ? "Equal" : "Not equal"}: ${number(count)} of ${number(bytes.length)} bytes differ, and ${answers} ${what}.`;
}

/** The browser paints the line before it is held up. */
function soon(name, act) {
  const verdict = document.getElementById(`${name}-verdict`);
  verdict.className = "verdict";
  verdict.textContent = "Drawing ..";
  setTimeout(act, 30);
}

const set = { source: setAsWebAssembly(), made: setAsAsmJs() };
let shown = WHOLE;

function show(what) {
  shown = what;
  const step = Math.round((what.width / WIDTH) * ONE);
  const left = Math.round(what.x * ONE) - (WIDTH / 2) * step, top = Math.round(what.y * ONE) + (HEIGHT / 2) * step;
  soon("set", () => judged("set", set, [left, top, step, what.depth], "points inside"));
}

function closer(event) {
  const { left, top, width, height } = event.target.getBoundingClientRect();
  const across = (event.clientX - left) / width - 0.5, down = (event.clientY - top) / height - 0.5;
  const x = shown.x + across * shown.width, y = shown.y - down * shown.width * (HEIGHT / WIDTH);
  // A point is at least 2^-26 wide, so that neighbours stay apart.
  show({ x, y, width: Math.max(shown.width / 3, (4 * WIDTH) / ONE), depth: shown.depth + 60 });
}

let beginning = 1, lives;

function begin() {
  lives = { source: lifeAsAsmJs(beginning), made: lifeAsWebAssembly(beginning) };
  beginning++;
  goOn();
}

function goOn() {
  soon("life", () => judged("life", lives, [10], "living cells"));
}

for (const side of ["source", "made"]) {
  document.getElementById(`set-${side}`).addEventListener("click", closer);
  document.getElementById(`life-${side}`).addEventListener("click", goOn);
}
document.getElementById("out").addEventListener("click", () => show(WHOLE));
document.getElementById("again").addEventListener("click", begin);
show(WHOLE);
begin();
