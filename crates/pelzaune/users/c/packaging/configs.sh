#!/bin/sh
# Writes pelzaune.pc and the package files of CMake, whose paths are relative to them.
#
#     configs.sh VERSION PREFIX LIBDIR FOLDER
#
# PREFIX and LIBDIR are the folders after the installation, and FOLDER is where LIBDIR is written.
set -e
version=$1 prefix=$2 libdir=$3 folder=$4
here=$(dirname "$0")

# Fills in a template for a folder of that name below LIBDIR.
fill() {
    mkdir -p "$folder/$2"
    sed -e "s|@PREFIX@|$(realpath -ms --relative-to="$libdir/$2" "$prefix")|" -e "s|@VERSION@|$version|" \
        -e "s|@MAJOR@|${version%%.*}|" "$here/$1.in" > "$folder/$2/$1"
}

fill pelzaune.pc pkgconfig
fill pelzaune-config.cmake cmake/pelzaune
fill pelzaune-config-version.cmake cmake/pelzaune
