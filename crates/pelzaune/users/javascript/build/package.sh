#!/bin/sh
# Makes the package, as npm installs it, of the sources and the module for wasm64.
#
#     package.sh PELZAUNE64.wasm FOLDER
#
# It runs in the library's folder. Debian: binaryen nodejs.
set -e
from=users/javascript
rm -rf "$2"
mkdir -p "$2"
cp "$from"/package/* "$from/README.md" ../../LICENSE-MIT ../../LICENSE-Apache ../../NOTICE "$2"
cp "$1" "$2/pelzaune64.wasm"
"$from/build/lower.sh" "$1" "$2/pelzaune.wasm"
node "$from/build/embed.mjs" "$2/pelzaune.wasm" > "$2/module.js"
