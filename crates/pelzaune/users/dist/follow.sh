#!/bin/sh
# Runs the two commands of a page in this folder. The last line that they print has to be that of the page.
#
#     follow.sh PAGE
set -eu
commands=$(sed -n '/^```sh$/,/^```$/p' "$1" | sed '/^```/d')
test "$(echo "$commands" | wc -l)" = 2 || { echo "$1 doesn't have two commands"; exit 1; }
wanted=$(sed -n 's/^It prints `\(.*\)`\.$/\1/p' "$1")
log=$(mktemp)
trap 'rm -f "$log"' EXIT
printed=$(sh -e -c "$commands" < /dev/null 2> "$log") || { cat "$log"; exit 1; }
got=$(echo "$printed" | tail -n 1)
test "$got" = "$wanted" || { echo "$1 says $wanted, and its commands print $got"; exit 1; }
