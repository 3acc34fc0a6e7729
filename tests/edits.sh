#!/usr/bin/env bash
# Every must-fail edit is refused at a fact that no longer holds: reads what `rt ci` printed. An edit that cannot be applied or read fails
# nothing there, and neither does one that is refused only because a proof names what the edit took away; here both fail.
# usage: edits.sh LOG    LOG is what `rt ci` printed
. "$(dirname "$0")/log.sh"

verdict "the log has $(grep -c '^rt: ok; ' "$log") lines 'rt: ok', not one" test "$(grep -c '^rt: ok; ' "$log")" = 1
verdict "$(grep '^rt: ok; ' "$log")" test -z "$(grep -E '^rt: ok; .*, [0-9]+ bad' "$log")"
for edit in crates/*/must-fail/*.edit; do
    name=${edit#crates/}
    name=${name/must-fail\//}
    said=$(grep -F "rt: must-fail $name: " "$log")
    verdict "$name: ${said:-is not in the log}" grep -qF "must-fail $name: refused, as it must be: " <<< "$said"
done

closing_line
