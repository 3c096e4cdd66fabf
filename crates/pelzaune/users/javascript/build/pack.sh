#!/bin/sh
# Packs the package as `npm pack` does: an archive with one folder `package`.
#
#     pack.sh FOLDER TARGET.tgz
#
# The archive depends on the files alone: their names are sorted, and have the time SOURCE_DATE_EPOCH.
set -e
export LC_ALL=C
target=$(realpath -m "$2")
tar -C "$1" --sort=name --mtime="@${SOURCE_DATE_EPOCH:-315532800}" --owner=0 --group=0 --numeric-owner --mode=u=rwX,go=rX \
    --transform='s,^\./,package/,' --exclude='./.*' -cf - --no-recursion $(cd "$1" && find . -type f | sort) | gzip -9n > "$target"
