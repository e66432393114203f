#!/bin/sh
# build.sh [NAME..]
#
# Proves and builds the named programs into target/bin and the library for C, linkage_c, into
# target/staticlib; with no name all of them. It needs the Rattle toolchain and nothing else.
#     tools/build.sh linkage && target/bin/linkage < crates/linkage/stdin
set -eu
cd "$(dirname "$0")/.."
[ $# -gt 0 ] || set -- linkage replay picture linkage_c
for name in "$@"; do
    if [ "$name" = linkage_c ]; then
        (cd "crates/$name" && rt lib)
        mkdir -p target/staticlib
        cp "crates/$name/out/lib$name.a" target/staticlib/
    else
        # rt builds a program by running it: here it is asked for its release
        (cd "crates/$name" && rt run -- --version)
        mkdir -p target/bin
        cp "crates/$name/out/$name" target/bin/
    fi
done
