#!/usr/bin/env bash
# Makes library.wasm and program.wasm of the C files, or in the folder that is named, by clang and wasm-ld (14.0.6 made those that are kept here).
# Each imports the same two pages of memory: what the library keeps stands in the first, and what the program keeps in the second.
set -eu
made=$(realpath "${1:-$(dirname "$0")}")
cd "$(dirname "$0")"
room=$(mktemp -d)
trap 'rm -rf "$room"' EXIT
for name in library program; do
  clang --target=wasm32 -ffreestanding -O2 -fno-inline-functions -msign-ext -mbulk-memory -Wall -Wextra -c -o "$room/$name.o" "$name.c"
done
both=(--no-entry --strip-all --import-memory --initial-memory=131072 --max-memory=131072 -z stack-size=4096)
wasm-ld "${both[@]}" -o "$made/library.wasm" "$room/library.o"
wasm-ld "${both[@]}" --global-base=65536 -o "$made/program.wasm" "$room/program.o"
