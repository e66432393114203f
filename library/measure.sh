#!/bin/sh
# measure.sh [LINES]
#
# What a read costs through the library, typed and by a frame, beside a function
# in C that does the same on the tables of reference/model.c: in one program, in
# turn, ROUNDS rounds (25), over the reads of a list of LINES lines (1000000) that
# reference/generate.py makes.  SEED gives another list, LINKAGE_LIB names another
# folder for the archive.  From the root of the repository:
#     tools/build.sh linkage_c
#     library/measure.sh
set -u
if [ $# -gt 1 ]; then
    echo "usage: measure.sh [LINES]" >&2
    exit 2
fi
here=$(CDPATH= cd -- "$(dirname -- "$0")" && pwd) || exit 2
archive=${LINKAGE_LIB:-$here/../target/staticlib}/liblinkage_c.a
tmp=$(mktemp -d) || exit 2
trap 'rm -rf "$tmp"' EXIT
trap 'exit 2' INT TERM HUP
cc -O2 -Wall -I"$here" -o "$tmp/measure" "$here/measure.c" "$archive" || exit 2
python3 "$here/../reference/generate.py" reads "${SEED:-1}" "${1:-1000000}" > "$tmp/list" || exit 2
"$tmp/measure" "$tmp/list" "${ROUNDS:-25}"
