#!/bin/sh
# Packs the release for users of the library.
#
#     pack.sh VERSION TARGET
#
# It runs in the library's folder, whose libraries and module are built, and writes TARGET, an archive with one folder
# pelzaune-VERSION, whose files have the time SOURCE_DATE_EPOCH. PYTHON names the Python of the wheel.
set -e
export LC_ALL=C
version=$1 target=$(realpath -m "$2") python=${PYTHON:-python3}
at=$(mktemp -d)
trap 'rm -rf "$at"' EXIT
all=$at/pelzaune-$version
mkdir -p "$all/c/include" "$all/c/lib" "$all/rust/lib" "$all/python"
cp ../../LICENSE-MIT ../../LICENSE-Apache ../../NOTICE users/dist/README.md "$all"

cp users/dist/c.md "$all/c/README.md"
cp users/dist/moment.c "$all/c"
cp include/pelzaune.h "$all/c/include"
cp out/libpelzaune.a "$all/c/lib"
cp out/c/libpelzaune.so "$all/c/lib/libpelzaune.so.1"
ln -s libpelzaune.so.1 "$all/c/lib/libpelzaune.so"
users/c/packaging/configs.sh "$version" /c /c/lib "$all/c/lib"
cp out/c/pelzaune.3 "$all/c"

cp -r users/rust/. "$all/rust"
cp users/dist/rust.md "$all/rust/README.md"
cp out/libpelzaune.a "$all/rust/lib"

users/dist/postgres.sh "$all/postgres"
cp users/dist/postgres.md "$all/postgres/README.md"

cp users/dist/python.md "$all/python/README.md"
"$python" users/dist/wheel.py out/c/python "$version" "$all/python" users/dist/python.md \
    ../../LICENSE-MIT ../../LICENSE-Apache ../../NOTICE
source=$at/source
cp -r users/python "$source"
mkdir "$source/include" "$source/lib"
cp include/pelzaune.h "$source/include"
cp out/libpelzaune.a "$source/lib"
cp users/dist/python.md "$source/README.md"
cp ../../LICENSE-MIT ../../LICENSE-Apache ../../NOTICE "$source"
(cd "$source" && "$python" setup.py --quiet sdist --dist-dir "$at" > "$at/log" 2>&1) || { cat "$at/log"; exit 1; }
mkdir "$at/sdist"
tar -C "$at/sdist" -xzf "$at/pelzaune-$version.tar.gz"

# The archive depends on the files alone: their names are sorted, and have one time.
packed() {
    tar -C "$1" --sort=name --mtime="@${SOURCE_DATE_EPOCH:-315532800}" --owner=0 --group=0 --numeric-owner --mode=u+rwX,go=rX \
        -cf - "pelzaune-$version" | gzip -9n > "$2"
}
packed "$at/sdist" "$all/python/pelzaune-$version.tar.gz"
packed "$at" "$target"
