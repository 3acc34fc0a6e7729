#!/usr/bin/env bash
# Shows that the outside tests notice mistakes. They are linked with a stand-in for the library: the right one must pass all of them, and
# with each mistake of mistakes.h, planted alone, they must fail. The stand-in is C, so everything is compiled for this machine.
# usage: run.sh [NAME..]    only these mistakes, and the right stand-in
. "$(dirname "$0")/../verdict.sh"

native=${NATIVE_CC:-cc}
work=target/planted
list=tests/planted/mistakes.h
flags=(-std=c99 -Wall -Wextra -Wpedantic -Werror -O1)
rm -rf "$work"
mkdir -p "$work"
if ! command -v "$native" > /dev/null; then
    echo "$0: no C compiler '$native': NATIVE_CC names another one" >&2
    echo '0 passed, 1 failed'
    exit 1
fi

names() { sed -nE 's/^    X\(([a-z0-9_]+), ".*/\1/p' "$list"; }
words() { sed -nE "s/^    X\\($1, \"(.*)\"\\).*/\\1/p" "$list"; }

build() { # build NAME: the outside tests with the stand-in that has this mistake
    "$native" "${flags[@]}" -DMISTAKE="$1" tests/planted/*.c "$work"/*.o -o "$work/$1" 2> "$work/$1.log"
}

how_it_ended() { # how_it_ended NAME STATUS: the words for a run of the outside tests
    local first
    first=$(sed -n 's/^FAILED: //p' "$work/$1.log" | head -n 1)
    case $2 in
    1) echo "caught: ${first:-no check is named}" ;;
    124) echo 'caught: the tests did not end' ;;
    *) if [ "$2" -gt 128 ]; then echo "caught: the tests crashed with signal $(($2 - 128))"; else echo "NOT CAUGHT, exit status $2"; fi ;;
    esac
}

try() { # try NAME: one mistake, built and tested; one line
    local name=$1 status=0 said
    if ! build "$name"; then
        verdict "$name does not compile" false
        sed -n 1,5p "$work/$name.log"
        return
    fi
    # the shell's own words on a crash are left out: the line below says it
    { timeout 60 "$work/$name" quick > "$work/$name.log" 2>&1 || status=$?; } 2> /dev/null
    said=$(how_it_ended "$name" "$status")
    echo "$name ($(words "$name")): $said"
    verdict "$name is not noticed" test "${said%%:*}" = caught
    rm -f "$work/$name"
}

for source in tests/outside/*.c; do
    verdict "$source compiles" "$native" "${flags[@]}" -c "$source" -o "$work/$(basename "$source" .c).o"
done

verdict 'the right stand-in compiles' build no_mistake
verdict 'all outside tests pass with the right stand-in' "$work/no_mistake"
verdict 'the quick tests pass with the right stand-in' "$work/no_mistake" quick 7 > "$work/quick.log"

for name in $(names); do
    verdict "$name has no place in the stand-in" grep -qw "WRONG($name)" tests/planted/*.c
done
if [ $# -gt 0 ]; then chosen=("$@"); else mapfile -t chosen < <(names); fi
for name in "${chosen[@]}"; do
    if [ -z "$(words "$name")" ]; then verdict "there is no mistake '$name'" false; else try "$name"; fi
done
echo "planted: ${#chosen[@]} mistakes tried"

closing_line
