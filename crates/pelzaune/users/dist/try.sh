#!/bin/sh
# Uses the archive as a user does, in an empty folder: unpacks it, and follows the page of each language. The extension of
# PostgreSQL is tested on a server of its own, if the tools to build it are installed.
#
#     try.sh ARCHIVE [LANGUAGE..]
set -e
serving=$(realpath "$(dirname "$0")/../postgres/tests/server.py")
unset CARGO_TARGET_DIR PELZAUNE_LIB PELZAUNE_HOME
archive=$(realpath "$1") follow=$(realpath "$(dirname "$0")/follow.sh")
shift
at=$(mktemp -d)
trap 'rm -rf "$at"' EXIT
cd "$at"
tar -xzf "$archive"
cd pelzaune-*
test -s LICENSE-MIT && test -s LICENSE-Apache
if [ $# = 0 ]; then
    set -- c rust python
    if [ -e "$(pg_config --includedir-server 2> ../log)/postgres.h" ] && [ -e "$(pg_config --bindir)/initdb" ]; then
        set -- "$@" postgres
    else
        echo "skipped: postgres, since there is no PostgreSQL with its headers"
    fi
fi

# Runs a command, for PostgreSQL with a running server.
run() {
    if [ "$language" = postgres ]; then python3 "$serving" "$@"; else "$@"; fi
}

for language in "$@"; do
    (cd "$language" && run "$follow" README.md)
done
