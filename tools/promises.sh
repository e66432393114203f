#!/bin/sh
# Lays docs/PROMISES.md beside the functions that carry the promises: the public functions of the crate promises, and
# those of any other crate that take nothing and give nothing. Each has a docstring, an `ensures` and an empty body, and
# the page names it as CRATE::NAME; and each promises::NAME on the page is such a function.
cd "$(dirname "$0")/.." || exit 1
page=docs/PROMISES.md
found=$(mktemp) || exit 1
trap 'rm -f "$found"' EXIT

# A line for each function: its name and what it lacks. The sources are as rt fmt lays them out.
find crates/*/src -name '*.rt' | sort | xargs awk '
    FNR == 1 { split(FILENAME, part, "/"); crate = part[2]; documented = 0; name = "" }
    /^ *#\[/ { next }
    /^ *pub (const )?fn / && (crate == "promises" || /fn [A-Za-z0-9_]+\(\)$/) {
        name = $0; sub(/.*fn /, "", name); sub(/[^A-Za-z0-9_].*/, "", name)
        lacks = (documented ? "" : ", no docstring") (/\(\)$/ ? "" : ", takes or gives something")
        promised = 0
    }
    name != "" && /^ *ensures / { promised = 1 }
    name != "" && (/^ *[{]/ || /[{]$/) {
        print crate "::" name lacks (promised ? "" : ", no ensures") (/^ *[{][}]$/ ? "" : ", a body")
        name = ""
    }
    { documented = /^ *\/\/\/ *[^ ]/ }
' >"$found"

wrong=$(
    grep ', ' "$found"
    for function in $(sed 's/,.*//' "$found"); do
        grep -q "$function\`" "$page" || echo "$function: not in $page"
    done
    for named in $(grep -o 'promises::[A-Za-z0-9_]*' "$page" | sort -u); do
        sed 's/,.*//' "$found" | grep -qx "$named" || echo "$named: in $page, and no function"
    done
)
if [ -n "$wrong" ]; then
    printf '%s\nthe promises: 0 passed, 1 failed\n' "$wrong"
    exit 1
fi
echo "the promises: $(wc -l <"$found") functions, each in $page"
