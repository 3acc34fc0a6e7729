#!/usr/bin/env bash
# House table with an exit status: 0, or 1 where the input is refused, or 2 where a read or a write failed or it has arguments. The program
# always ends with status 0, so the status is told by what target/bin/house_table says on standard error.
# usage: house_table.sh < INPUT
set -u
. "$(dirname "$0")/host.sh"
if [ ! -x "$repository/target/bin/house_table" ]; then
    echo "$0: target/bin/house_table is missing: bash tools/build_house_table.sh builds it" >&2
    exit 2
fi
said=$(mktemp) || exit 2
trap 'rm -f "$said"' EXIT
status=0
"$(program house_table)" "$@" 2> "$said" || status=$?
cat "$said" >&2
if [ "$status" -eq 0 ] && [ -s "$said" ]; then
    status=1
    if grep -qvx 'house_table: refused [0-9]*' "$said"; then status=2; fi
fi
exit "$status"
