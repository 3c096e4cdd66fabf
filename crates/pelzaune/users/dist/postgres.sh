#!/bin/sh
# Copies everything that builds the extension of PostgreSQL into a new folder. It runs in the library's folder, whose
# archive is built.
#
#     postgres.sh TARGET
set -e
mkdir -p "$1/include" "$1/lib"
cp users/postgres/Makefile users/postgres/*.control users/postgres/*.sql users/postgres/*.c users/postgres/*.h users/sql/formats.h "$1"
cp -r users/postgres/sql users/postgres/expected "$1"
cp include/pelzaune.h "$1/include"
cp out/libpelzaune.a "$1/lib"
