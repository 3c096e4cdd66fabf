#!/bin/sh
# Tests the package, the page and the archive, in Node and in the browsers that are installed.
#
#     test.sh PACKAGE PAGE.html ARCHIVE.tgz ANSWERS
#
# It runs in the library's folder. ANSWERS is the program of users/lines. What needs something that isn't installed is
# reported as skipped.
set -e
package=$1 page=$2 archive=$3 answers=$4 here=users/javascript/tests
at=$(mktemp -d)
trap 'rm -rf "$at"' EXIT

# Node runs a module with a memory of 64 bits by itself, by a flag, or not at all.
wide='WebAssembly.validate(require("fs").readFileSync(process.argv[1])) || process.exit(1)'
if node -e "$wide" "$package/pelzaune64.wasm"; then
    node64=node
elif node --experimental-wasm-memory64 -e "$wide" "$package/pelzaune64.wasm" 2> "$at/log"; then
    node64='node --experimental-wasm-memory64'
else
    node64= && echo "skipped: pelzaune64.wasm in Node, since it has no memory of 64 bits"
fi

node "$here/node.mjs" "$package"
# Node 18 has no isWellFormed.
node --import 'data:text/javascript,delete String.prototype.isWellFormed' "$here/node.mjs" "$package"
[ -z "$node64" ] || $node64 "$here/node.mjs" "$package" pelzaune64.wasm

# The native library and both modules answer alike.
python3 users/lines/make_lines.py 60000 > "$at/lines"
"$answers" nanoseconds < "$at/lines" > "$at/native"
node "$here/answers.mjs" "$package" < "$at/lines" > "$at/answers"
cmp "$at/answers" "$at/native"
if [ -n "$node64" ]; then
    $node64 "$here/answers.mjs" "$package" pelzaune64.wasm < "$at/lines" > "$at/answers"
    cmp "$at/answers" "$at/native"
fi
echo "60000 lines answered as by the native library"

# The types declare what the package exports, and a program that makes each call is well typed.
if command -v tsc > /dev/null; then
    mkdir -p "$at/typed/node_modules"
    ln -s "$(realpath "$package")" "$at/typed/node_modules/pelzaune"
    cp "$here"/typed.mts "$here"/untyped.mts "$at/typed"
    check="tsc --strict --noEmit --target es2020 --module nodenext --moduleResolution nodenext --lib es2020,dom"
    (cd "$at/typed" && $check typed.mts)
    wanted=$(grep -c 'wrong:' "$here/untyped.mts")
    got=$(cd "$at/typed" && $check untyped.mts | grep -c '^untyped.mts.*error') || true
    [ "$got" = "$wanted" ] || { echo "$got of $wanted wrong calls are errors of types"; exit 1; }
else
    echo "skipped: the types, since there is no tsc (Debian: node-typescript)"
fi

# The module is at most as large as its page states.
whole=$(wc -c < "$package/pelzaune.wasm") compressed=$(gzip -9n < "$package/pelzaune.wasm" | wc -c)
echo "pelzaune.wasm: $whole bytes, $compressed compressed"
test "$whole" -le 320000
test "$compressed" -le 100000

# The archive runs by the two commands of its page.
cp "$archive" "$package/README.md" "$at"
(cd "$at" && "$OLDPWD/users/dist/follow.sh" README.md)

node "$here/browsers.mjs" "$package"
node "$here/page.mjs" "$page"
