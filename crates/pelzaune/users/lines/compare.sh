#!/bin/sh
# Checks that the answers of C, Python and time_lines to generated lines are equal, byte for byte.
#
#     compare.sh COUNT
#
# It runs in the library's folder, whose module and program `answers` are built. time_lines is built here, by `rt run`, if
# a source is newer than the program: that proves what isn't proved yet.
set -e
count=$1 at=$(mktemp -d) python=${PYTHON:-python3} home=$(pwd)
trap 'rm -rf "$at"' EXIT
"$python" users/lines/make_lines.py "$count" > "$at/lines"
program=../time_lines/out/time_lines
if ! [ -x "$program" ] || [ -n "$(find .. -name out -prune -o -name '*.rt' -newer "$program" -print -quit)" ]; then
    (cd ../time_lines && ${RT:-rt} run < /dev/null > "$at/log" 2>&1) || { cat "$at/log"; exit 1; }
fi
"$program" < "$at/lines" > "$at/program"
"$home/out/c/answers" moments < "$at/lines" > "$at/moments"
cmp "$at/program" "$at/moments"
"$home/out/c/answers" nanoseconds < "$at/lines" > "$at/nanoseconds"
PYTHONPATH=$home/out/c/python "$python" users/lines/answers.py < "$at/lines" > "$at/python"
cmp "$at/nanoseconds" "$at/python"
refused=$(grep -c '^error' "$at/moments")
echo "$count lines answered alike, $refused of them by a refusal"
test "$(wc -l < "$at/moments")" = "$count"
test "$refused" -gt $((count / 4)) && test "$refused" -lt $((count * 3 / 4))
