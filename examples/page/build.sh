#!/usr/bin/env bash
# Makes the page's other files of mandelbrot.c and life.js: the module of WebAssembly, by clang and wasm-ld (14.0.6 made the one that is kept
# here), its bytes in base64, which a page can load without a server, and what Bridge makes of the two programs, packed with the hosts.
# Where BUILT is set, the module of mandelbrot.c isn't made anew. BRIDGE names the program where it isn't bin/bridge. Node is needed.
set -eu
cd "$(dirname "$0")"
bridge=$(realpath "${BRIDGE:-../../bin/bridge}")
room=$(mktemp -d)
trap 'rm -rf "$room"' EXIT
if [ -z "${BUILT:-}" ]; then
  clang --target=wasm32 -ffreestanding -O2 -msign-ext -mbulk-memory -Wall -Wextra -c -o "$room/object" mandelbrot.c
  wasm-ld --no-entry --strip-all --import-memory --initial-memory=1048576 --max-memory=1048576 -z stack-size=4096 -o mandelbrot.wasm "$room/object"
  chmod 644 mandelbrot.wasm
fi
./embed.sh mandelbrot.wasm >mandelbrot_wasm.js
"$bridge" wasm2js mandelbrot.wasm >"$room/mandelbrot.js"
node ../../host/pack.mjs --script mandelbrotAsm mandelbrot.wasm "$room/mandelbrot.js" >mandelbrot_asm.js
"$bridge" asm2wasm life.js --heap 2097152 >"$room/life.wasm"
node ../../host/pack.mjs --script lifeWasm life.js "$room/life.wasm" >life_wasm.js
