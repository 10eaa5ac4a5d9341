#!/usr/bin/env bash
# ./embed.sh FILE: a script of JavaScript that holds the file's bytes in base64.
set -eu
echo "// Made by embed.sh of $(basename "$1")."
echo "const MODULE_IN_BASE64 = \"$(base64 -w 0 "$1")\";"
