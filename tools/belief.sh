#!/usr/bin/env bash
# What a reader of the promises must believe, and how much of it there is: docs/belief.txt lists every file of definitions, and from it come
# the tables of docs/PROMISES.md, between the markers `<!-- belief KIND -->` and `<!-- end KIND -->`.
# A line of the list is: PATH KIND SENTENCE. The kinds are `believed` (the public promises use it), `follows` (what is proved of the
# definitions) and `inner` (between our own functions). Lines that begin with # are comments. Imports, comments and blank lines of a file
# are not counted.
# usage: belief.sh            writes the tables
#        belief.sh --check    changes nothing; fails if a table is not what it would write, if the list is not that of the tree, or if
#                             more than 900 lines must be believed
#        belief.sh --new      prints a line for each file that the list lacks: the kind by its name, the sentence by its first comment
set -u
cd "$(dirname "$0")/.." || exit 2
list=docs/belief.txt
promises=docs/PROMISES.md
most=900
bad=0

problem() {
    echo "belief: $*" >&2
    bad=1
}

# how many lines of definitions: an import ends where its braces are closed
lines_of() {
    awk '
        importing { if (/}/) importing = 0; next }
        /^use([[:space:]]|$)/ { if (/{/ && !/}/) importing = 1; next }
        /^[[:space:]]*(--.*)?$/ { next }
        { count++ }
        END { print count + 0 }' "$1"
}

# the files of definitions; a Lib.antt only names the others
spec_files() { find crates/*/specs -name '*.antt' ! -name Lib.antt | sort; }
listed() { sed -E '/^[[:space:]]*(#|$)/d' "$list"; }

kind_by_name() {
    case $(basename "$1" .antt) in
    Laws | Requests | Unique | Apart | Examples | Requirement* | *Laws | Claims) echo follows ;;
    *) case $1 in crates/zaqfinell/* | crates/method/* | crates/table/* | crates/network/*) echo believed ;; *) echo inner ;; esac ;;
    esac
}

first_comment() { sed -nE '1s/^-- *(.*)/\1/p' "$1" | sed -E 's/\. .*//; s/[.:]$//'; }

print_new() {
    local file
    for file in $(spec_files); do
        grep -q "^$file " "$list" || echo "$file $(kind_by_name "$file") $(first_comment "$file")"
    done
}

check_list() {
    local file kind words
    while read -r file kind words; do
        case $kind in
        believed | follows | inner) ;;
        *) problem "$list: $file has the kind '$kind', which is none of believed, follows, inner" ;;
        esac
        [ -n "$words" ] || problem "$list: $file has no sentence"
        [ -f "$file" ] || problem "$list: there is no file $file"
    done < <(listed)
    while read -r file; do problem "$list: $file stands there twice"; done < <(listed | awk '{ print $1 }' | sort | uniq -d)
    while read -r file; do
        grep -q "^$file " "$list" || problem "$file is not in $list (belief.sh --new prints a line for it)"
    done < <(spec_files)
}

sum_of() { # sum_of KIND
    local file kind words sum=0
    while read -r file kind words; do
        if [ "$kind" = "$1" ] && [ -f "$file" ]; then sum=$((sum + $(lines_of "$file"))); fi
    done < <(listed)
    echo "$sum"
}

table_of() { # table_of KIND
    local file kind words
    printf '\n| file | lines | what it says |\n|---|---|---|\n'
    while read -r file kind words; do
        if [ "$kind" = "$1" ] && [ -f "$file" ]; then echo "| \`$file\` | $(lines_of "$file") | $words |"; fi
    done < <(listed)
    printf '| all | %s | |\n\n' "$(sum_of "$1")"
}

made() { # PROMISES.md with the tables in it
    local kind folder
    folder=$(mktemp -d) || exit 2
    for kind in believed follows inner; do table_of "$kind" > "$folder/$kind"; done
    awk -v folder="$folder" '
        /^<!-- end [a-z]+ -->$/ { skipping = 0 }
        !skipping { print }
        /^<!-- belief [a-z]+ -->$/ { skipping = 1; while ((getline line < (folder "/" $3)) > 0) print line }' "$promises"
    rm -rf "$folder"
}

marked=yes # without its markers nothing is written: text could be lost
for kind in believed follows inner; do
    for marker in "<!-- belief $kind -->" "<!-- end $kind -->"; do
        if [ "$(grep -cxF -- "$marker" "$promises")" != 1 ]; then
            problem "$promises does not have the line '$marker' just once"
            marked=no
        fi
    done
done
[ -f "$list" ] || { problem "there is no $list" && exit 1; }

case ${1:-} in
--new) print_new ;;
--check | '')
    check_list
    believed=$(sum_of believed)
    [ "$believed" -le "$most" ] || problem "$believed lines must be believed; at most $most are wanted"
    text=$(made)
    if [ "${1:-}" = --check ]; then
        [ "$text" = "$(cat "$promises")" ] || problem "the tables of $promises are not those of $list: bash tools/belief.sh writes them"
    elif [ "$marked" = yes ]; then
        printf '%s\n' "$text" > "$promises"
    fi
    echo "lines of definitions: $believed believed (at most $most), $(sum_of follows) that follow, $(sum_of inner) inner"
    ;;
*)
    echo "usage: $0 [--check|--new]" >&2
    exit 2
    ;;
esac
exit "$bad"
