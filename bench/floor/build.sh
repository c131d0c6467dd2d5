#!/bin/sh
# Builds the floor of the figures: floor/build.sh PROGRAM. It needs gcc and SQLite's header and library
# (Debian: libsqlite3-dev), and is no part of the gate.
set -eu
here=$(dirname "$0")
folder=$(mktemp -d)
trap 'rm -r "$folder"' EXIT
python3 "$here/statements.py" > "$folder/statements.h"
gcc -O2 -Wall -I "$folder" -o "$1" "$here/floor.c" -lsqlite3
