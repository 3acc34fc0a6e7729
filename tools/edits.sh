#!/usr/bin/env bash
# How many must-fail edits each crate has: wrong programs of the same shape, which the checker must refuse.
# usage: edits.sh            prints a line for each crate, in the order of crates.txt, and their sum
#        edits.sh --check    fails if README.md or a file of docs/ names another number of "must-fail edits" than the sum
#        edits.sh --write    puts the sum wherever they name one
set -u
cd "$(dirname "$0")/.." || exit 2
count() { find "crates/$1/must-fail" -name '*.edit' 2> /dev/null | wc -l; }
crates=$(sed -nE 's/^([a-z0-9_]+)( [^:]*)?:.*/\1/p' crates.txt)
total=$(find crates -path '*/must-fail/*.edit' | wc -l)
named='[0-9]+ must-fail edits'
case ${1:-} in
'')
    for crate in $crates; do echo "$crate $(count "$crate")"; done
    echo "all $total"
    ;;
--check)
    found=$(grep -oE "$named" README.md docs/*.md)
    [ -n "$found" ] || { echo "no document names the number of must-fail edits" >&2 && exit 1; }
    wrong=$(grep -vE ":$total must-fail edits$" <<< "$found")
    [ -z "$wrong" ] || { printf 'there are %s must-fail edits, and not:\n%s\n' "$total" "$wrong" >&2 && exit 1; }
    ;;
--write) sed -i -E "s/$named/$total must-fail edits/g" README.md docs/*.md ;;
*)
    echo "usage: $0 [--check|--write]" >&2
    exit 2
    ;;
esac
