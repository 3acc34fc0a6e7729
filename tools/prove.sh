#!/usr/bin/env bash
# Proves the library and builds target/staticlib/libzaqfinell.a: a line for each crate as soon as it is proved. A crate that has not changed
# is not proved again. All that the toolchain says is in target/prove.log, and is shown if something is not proved. The code is for every
# x86-64 processor; the toolchain's default asks for a newer one.
set -eu -o pipefail
cd "$(dirname "$0")/.."
if ! command -v rt > /dev/null; then
    echo "$0: the Rattle toolchain is missing: there is no rt on the PATH" >&2
    exit 1
fi
log=target/prove.log
mkdir -p target/staticlib
echo 'Proving the library (some minutes the first time):'
# a crate's verdict comes after the line that names it
if ! (cd crates/zaqfinell_c && rt lib --cpu x86-64 2>&1) | tee "$log" | sed -un -E \
    -e '/^crate [a-z0-9_]+:/{ s/^crate ([a-z0-9_]+):.*/\1/; h; }' -e '/^logic=proved /{ g; s/^/  /; s/$/ proved/p; }'; then
    cat "$log" >&2
    echo "$0: the library is not proved" >&2
    exit 1
fi
cp crates/zaqfinell_c/out/libzaqfinell_c.a target/staticlib/libzaqfinell.a
echo '  target/staticlib/libzaqfinell.a is built'
