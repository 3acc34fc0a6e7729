#!/usr/bin/env bash
# Proves and builds target/bin/house_table, unless it is newer than everything that it is made of.
set -eu
cd "$(dirname "$0")/.."
program=target/bin/house_table
if [ ! -x "$program" ] || [ -n "$(find crates crates.txt -name out -prune -o -newer "$program" -print -quit)" ]; then
    mkdir -p target/bin
    # rt links the program and runs it: on no input, which is refused
    log=$(cd crates/house_table && rt run --cpu x86-64 < /dev/null 2>&1) || { echo "$log" >&2 && exit 1; }
    cp crates/house_table/out/house_table "$program"
fi
echo "$program"
