#!/usr/bin/env bash
# Makes bytes.wasm, or the file that is named, of bytes.c, by clang and wasm-ld (14.0.6 made the one that is kept here):
# WebAssembly 1.0 with the sign extensions, memory.copy and memory.fill, and two pages of memory from the host.
set -eu
made=$(realpath "${1:-$(dirname "$0")/bytes.wasm}")
cd "$(dirname "$0")"
object=$(mktemp)
trap 'rm -f "$object"' EXIT
clang --target=wasm32 -ffreestanding -O2 -msign-ext -mbulk-memory -Wall -Wextra -c -o "$object" bytes.c
wasm-ld --no-entry --strip-all --import-memory --initial-memory=131072 --max-memory=131072 -z stack-size=4096 -o "$made" "$object"
