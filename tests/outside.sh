#!/usr/bin/env bash
# Builds the static library and the outside test program from nothing but this folder and the header, and runs it: without arguments, the
# tests that read files beside all others.
# usage: outside.sh [quick] [SEED]
set -eu
cd "$(dirname "$0")/.."
. tools/host.sh
library=$(bash tools/library.sh)
mkdir -p "$built/outside"
outside=$built/outside/outside
"$CC" -std=c99 -Wall -Wextra -Wpedantic -Werror -O2 tests/outside/*.c "$library" -o "$outside"
if [ $# -gt 0 ]; then
    exec "$outside" "$@"
fi

status=0
"$outside" files > "$outside.files" 2>&1 &
{ "$outside" others 2>&1 || echo 'exit status not 0'; } | tee "$outside.others"
wait $! || echo 'exit status not 0' >> "$outside.files"
cat "$outside.files"
if grep -q '^exit status not 0$' "$outside.files" "$outside.others"; then status=1; fi
awk '/^[0-9]+ passed, [0-9]+ failed$/ { passed += $1; failed += $3 } END { print passed + 0 " passed, " failed + 0 " failed" }' \
    "$outside.others" "$outside.files"
exit $status
