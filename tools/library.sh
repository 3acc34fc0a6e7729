#!/usr/bin/env bash
# Prints where the static library is: target/staticlib/libzaqfinell.a, or that of the target that ZAQ_TARGET names. It is proved and built
# first unless it is newer than everything that it is made of. ZAQ_LIBRARY names another library to link instead, for every script that asks
# here.
set -eu
cd "$(dirname "$0")/.."
build=(bash tools/prove.sh)
library=target/staticlib/libzaqfinell.a
if [ -n "${ZAQ_TARGET:-}" ]; then
    build=(bash tools/lib_for.sh "$ZAQ_TARGET")
    library=target/$ZAQ_TARGET/libzaqfinell.a
fi
library=${ZAQ_LIBRARY:-$library}
if [ -n "${ZAQ_LIBRARY:-}" ]; then
    [ -f "$library" ] || { echo "$0: ZAQ_LIBRARY: there is no file $library" >&2 && exit 1; }
elif [ ! -f "$library" ] || [ -n "$(find crates crates.txt -name out -prune -o -newer "$library" -print -quit)" ]; then
    log=$("${build[@]}" 2>&1) || { echo "$log" >&2 && exit 1; }
fi
echo "$library"
