#!/bin/sh
# Lowers the module for wasm64 to a memory of 32 bits, whose exports take Numbers for pointers and lengths, and optimizes
# it.
#
#     lower.sh PELZAUNE64.wasm PELZAUNE.wasm
#
# Debian: binaryen nodejs.
set -e
here=$(dirname "$0") at=$(mktemp -d)
trap 'rm -rf "$at"' EXIT
# What the linked module uses.
features='--enable-sign-ext --enable-mutable-globals --enable-nontrapping-float-to-int --enable-bulk-memory --enable-multivalue'
wasm-opt $features --enable-memory64 --strip-debug --strip-producers --strip-target-features --memory64-lowering "$1" -o "$at/lowered.wasm"
wasm-dis $features "$at/lowered.wasm" -o "$at/lowered.wat"
node "$here/narrow.mjs" < "$at/lowered.wat" > "$at/narrow.wat"
wasm-as $features "$at/narrow.wat" -o "$at/narrow.wasm"
wasm-opt $features -O3 "$at/narrow.wasm" -o "$2"
