#!/usr/bin/env bash
# Builds the static library and every benchmark of this folder, or those named, and runs them one after the other: one table.
# usage: run.sh [check|most|run|write|read|stack ..]
# ZAQ_LIBRARY=file.a: measures that library instead of building one; CC compiles for its processor
# ZAQ_TARGET=TARGET: measures the library for a target of tools/lib_for.sh
set -eu
cd "$(dirname "$0")/.."
. tools/host.sh
library=$(bash tools/library.sh)
out=$built/bench
mkdir -p "$out"
compile="$CC -std=c99 -Wall -Wextra -Wpedantic -Werror"

# the competitor at both levels, the houses, and the outside tests' simulation, which says what is right
parts=("$out/houses.o" "$out/reference.o" "$out/reference_run.o" "$out/in_header.o")
for source in plain_run plain_list plain_read plain_shortest; do
    for level in O2 O3; do
        $compile "-$level" -DLEVEL="$level" -c "bench/$source.c" -o "$out/${source}_$level.o"
        parts+=("$out/${source}_$level.o")
    done
done
$compile -O2 -c bench/houses.c -o "$out/houses.o"
for source in reference reference_run in_header; do $compile -O2 -c "tests/outside/$source.c" -o "$out/$source.o"; done

echo "the library against plain C, $("$CC" --version | head -n 1); load when it began: $(cut -d ' ' -f 1 /proc/loadavg)"
echo "a ratio is the middle of 101 rounds, the middle half of them in brackets"
programs=${*:-check most run write read stack}
if [ "$emulated" = yes ] && [ -z "${ZAQ_LIBRARY:-}" ]; then
    echo 'the programs are emulated here: their times say nothing, and only the stack is measured'
    programs=stack
fi
for program in $programs; do
    own=()
    if [ "$program" = most ]; then # no other program is laid out anew by the competitor that it alone has
        for level in O2 O3; do
            $compile "-$level" -DLEVEL="$level" -c bench/plain_most.c -o "$out/plain_most_$level.o"
            own+=("$out/plain_most_$level.o")
        done
    fi
    $compile -O2 "bench/$program.c" "${parts[@]}" "${own[@]}" "$library" -o "$out/$program"
    "$out/$program"
done
