#!/bin/sh
# pictures.sh PICTURE
#
# Draws the two pictures of docs/PICTURE.md with the program PICTURE, by the commands that stand there, and
# compares them with those in docs/pictures. Exits 1 at a difference.
set -u
if [ $# -ne 1 ]; then
    echo "usage: pictures.sh PICTURE" >&2
    exit 2
fi
here=$(CDPATH= cd -- "$(dirname -- "$0")/.." && pwd) || exit 2
different=0
while read -r name lines; do
    if head -n "$lines" "$here/crates/lists_try/data/$name.in" | "$1" server 00 |
        cmp - "$here/docs/pictures/$name.svg"; then
        echo "$name.svg: as in docs/pictures"
    else
        different=1
    fi
done << LIST
figure2 44
worked 15
LIST
exit $different
