#!/bin/sh
# check.sh PROGRAM
#
# Builds what is for C and what is for Rust over the archive, in a temporary
# folder, and
#   - runs the two examples, which README shows word for word, and the Rust tests;
#   - runs the stored lists of crates/lists_try through the library frame by
#     frame, by typed calls, and as a stream in pieces of 1, 7 and 4096 bytes,
#     from C and from Rust, and compares each answer with the frame program's and
#     with the stored ones;
#   - calls every function on engines of random contents, with the sanitizers of
#     the C compiler.
# Exits 1 at a difference.  From the root of the repository:
#     tools/build.sh linkage linkage_c
#     library/check.sh target/bin/linkage
# LINKAGE_LIB names another folder for the archive, SEED and ENGINES (2000) say
# which random engines.  It needs cc, and nothing from a network; where there is
# no cargo it says so, and leaves out what is for Rust.
set -u
if [ $# -ne 1 ]; then
    echo "usage: check.sh PROGRAM" >&2
    exit 2
fi
here=$(CDPATH= cd -- "$(dirname -- "$0")" && pwd) || exit 2
program=$(CDPATH= cd -- "$(dirname -- "$1")" && pwd)/$(basename -- "$1") || exit 2
LINKAGE_LIB=$(CDPATH= cd -- "${LINKAGE_LIB:-$here/../target/staticlib}" && pwd) || exit 2
archive=$LINKAGE_LIB/liblinkage_c.a
stored=$here/../crates/lists_try
for file in "$program" "$archive"; do
    if [ ! -f "$file" ]; then
        echo "no $file" >&2
        exit 2
    fi
done
tmp=$(mktemp -d) || exit 2
trap 'rm -rf "$tmp"' EXIT
trap 'exit 2' INT TERM HUP

# ---------------------------------------------------------------- building
strict="-std=c99 -O2 -Wall -Wextra -pedantic -Werror"
for name in example drive; do
    cc $strict -I"$here" -o "$tmp/$name" "$here/$name.c" "$archive" || exit 1
done
cc -std=c99 -g -O1 -Wall -Wextra -Werror -fsanitize=address,undefined -fno-sanitize-recover=all \
    -I"$here" -o "$tmp/random" "$here/random.c" "$archive" || exit 1
if command -v c++ > "$tmp/c++"; then
    c++ -std=c++11 -Wall -Wextra -pedantic -Werror -I"$here" -o "$tmp/example++" \
        -x c++ "$here/example.c" -x none "$archive" || exit 1
fi
languages=C
rust=
if command -v cargo > "$tmp/cargo-is"; then
    languages="C Rust"
    export LINKAGE_LIB CARGO_TARGET_DIR="$tmp/cargo"
    cargo build --quiet --offline --locked --release --examples \
        --manifest-path "$here/rust/Cargo.toml" || exit 1
    rust=$CARGO_TARGET_DIR/release/examples
else
    echo "no cargo: what is for Rust is not tried"
fi

# ---------------------------------------------------------------- examples
echo "example.c:"
"$tmp/example" > "$tmp/said" || exit 1
cat "$tmp/said"
if [ -x "$tmp/example++" ]; then
    "$tmp/example++" | cmp - "$tmp/said" || exit 1
    echo "example.c as C++: the same"
fi
if [ -n "$rust" ]; then
    echo "rust/examples/read.rs:"
    "$rust/read" > "$tmp/said-rust" || exit 1
    cat "$tmp/said-rust"
    for said in said said-rust; do
        grep '^user' "$tmp/$said" > "$tmp/$said.verdicts"
    done
    cmp "$tmp/said.verdicts" "$tmp/said-rust.verdicts" || exit 1
fi
shown() { # LANGUAGE FILE: README has the file, word for word
    awk -v fence="\`\`\`$1" '$0 == fence { on = 1; next } /^```$/ { on = 0 } on' "$here/../README.md" |
        cmp - "$here/$2" || exit 1
}
shown c example.c
shown rust rust/examples/read.rs
if [ -n "$rust" ]; then
    cargo test --quiet --offline --locked --manifest-path "$here/rust/Cargo.toml" > "$tmp/tests" 2>&1 || {
        cat "$tmp/tests"
        exit 1
    }
    echo "rust tests: passed"
fi

# ------------------------------------------------------------------- lists
# The program's answers, list by list, and that all of them are the stored ones.
lists=0
for list in $(cat "$stored/args"); do
    "$program" < "$stored/data/$list" > "$tmp/$list.out" || exit 1
    cat "$tmp/$list.out" >> "$tmp/all"
    lists=$((lists + 1))
done
cmp "$tmp/all" "$stored/stdout" || exit 1
lines=$(wc -l < "$tmp/all")
echo "program: $lists lists, $lines lines as stored"

different=0
way() { # NAME COMMAND..
    name=$1
    shift
    same=0
    agreed=0
    for list in $(cat "$stored/args"); do
        "$@" < "$stored/data/$list" > "$tmp/got" || echo "$name: $list: exit $?"
        if cmp "$tmp/got" "$tmp/$list.out"; then
            same=$((same + 1))
            agreed=$((agreed + $(wc -l < "$tmp/got")))
        fi
    done
    echo "$name: $same of $lists lists agree, $agreed of $lines lines"
    [ "$same" -eq "$lists" ] && [ "$agreed" -eq "$lines" ] || different=1
}
for language in $languages; do
    drive=$tmp/drive
    [ $language = C ] || drive=$rust/drive
    way "$language, frame by frame" "$drive" frames
    way "$language, typed calls" "$drive" typed
    for bytes in 1 7 4096; do
        way "$language, pieces of $bytes" "$drive" pieces $bytes
    done
done

# ---------------------------------------------------------- random engines
"$tmp/random" "${SEED:-1}" "${ENGINES:-2000}" || different=1
exit $different
