#!/usr/bin/env bash
# Holds the documents to the tree: what must be believed, the must-fail edits, the names of the header, the refusals, and the worked
# examples of docs/FORMATS.md bit by bit.
. "$(dirname "$0")/verdict.sh"

verdict 'the tables of what must be believed' bash tools/belief.sh --check
verdict 'the number of must-fail edits' bash tools/edits.sh --check

planted=$(grep -cE '^    X\([a-z0-9_]+, "' tests/planted/mistakes.h)
verdict "there are $planted planted mistakes, and docs/BENCHMARKS.md names another number" \
    grep -qE "(^|[^0-9])$planted planted mistakes" <(tr '\n' ' ' < docs/BENCHMARKS.md)

# an edit is named as `crate/edit`
named=$(grep -oE '`[a-z_0-9]+/[a-z_0-9]+`' docs/PROMISES.md | tr -d '`' | sort -u)
verdict 'docs/PROMISES.md names must-fail edits' test "$(wc -l <<< "$named")" -gt 10
for edit in $named; do
    verdict "docs/PROMISES.md names the edit $edit, which is not there" test -f "crates/${edit%/*}/must-fail/${edit#*/}.edit"
done

# the header's names, and those that documents speak of
header=include/zaqfinell.h
for name in $(grep -ohE '\b(ZAQ|zaq)_[A-Za-z_]*[A-Za-z]\b' README.md docs/*.md | sort -u); do
    case $name in
    ZAQ_LIBRARY | ZAQ_TARGET) continue ;; # of the scripts
    esac
    verdict "a document speaks of $name, which the header does not have" grep -qw "$name" "$header"
done

# the refusals have one list, the header's; docs/FORMATS.md shows it
list=$(sed -nE 's/^ *X\(([0-9]+), (ZAQ_[A-Z_]+), "(.*)"\).*/| \1 | `\2` | \3 |/p' "$header")
verdict 'the header lists 18 refusals' test "$(wc -l <<< "$list")" = 18
verdict "the refusals of docs/FORMATS.md are not the header's" \
    test "$(grep -E '^\| [0-9]+ \| `ZAQ_' docs/FORMATS.md)" = "$list"

digits_of() { # digits_of TITLE: the bits of the first column of the table under this title, as hexadecimal digits
    local bits
    bits=$(awk -v title="$1" '$0 == title { on = 1; next } /^#/ { on = 0 } on' docs/FORMATS.md |
        sed -nE 's/^\| `([01]+)` \|.*/\1/p' | tr -d '\n')
    while [ -n "$bits" ]; do
        printf '%x' "$((2#${bits:0:4}))"
        bits=${bits:4}
    done
}
verdict "network Q is $(digits_of '### Network Q, bit by bit') in docs/FORMATS.md" \
    test "$(digits_of '### Network Q, bit by bit')" = 124004011121022204
verdict "file P4 is $(digits_of '### File P4, bit by bit') in docs/FORMATS.md" test "$(digits_of '### File P4, bit by bit')" = 1024888c8440

verdict "a document says 'behind'" test -z "$(grep -rn behind README.md include docs)"
# a word in capitals alone on a line, or one with underscores that names nothing in the header or the code, is a place that somebody meant
# to fill
constants=$(grep -ohE 'const [A-Z]+_[A-Z_]+:' crates/*/src/*.rt | sed -E 's/const (.*):/\1/')
verdict 'no document has an unfilled place' \
    test -z "$(grep -ohE '^[A-Z]+$|\b[A-Z]+_[A-Z_]+\b' README.md docs/*.md | grep -v '^ZAQ_' | grep -vxF "$constants")"

closing_line
